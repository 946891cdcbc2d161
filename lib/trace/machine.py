"""Records a program on this machine, with what is known here of its credentials and limits."""

import contextlib
import os
import pathlib
import re
import shutil
import subprocess
import tempfile

from c_words import BITS
from creds import Creds
from sessions import Stopped

CALLS = "trace=%ipc,%creds,execve,?clone,?clone3,?fork,?vfork,?unshare,?setns"
# Of structures all is written, but of execve, whose environment is nobody's concern.
STRACE = ["strace", "-f", "-ttt", "-s", "8192", "-e", "abbrev=execve", "-e", CALLS]
# What the language takes of each limit.
MOST = {"msgmax": 65536, "msgmnb": 2**31 - 1, "semmsl": 32000, "semopm": 500, "shmmax": 2**30}
MOST.update({"queues": 32768, "sets": 32768, "segments": 32768})


@contextlib.contextmanager
def trace(program, output):
    """The file with the trace of a program; None where there is no program to be run."""
    if program is None:
        yield None
        return
    if not shutil.which("strace"):
        raise Stopped("the command strace is not on the path")
    with tempfile.TemporaryDirectory() as folder:
        file = output or f"{folder}/trace"
        ended = subprocess.run([*STRACE, "-o", file, "--", *program], check=False)
        if not pathlib.Path(file).exists() or not pathlib.Path(file).read_bytes():
            raise Stopped(f"strace wrote no trace; it ended with status {ended.returncode}")
        yield file


def credentials():
    """Those of this process, which are those of what it starts."""
    mask = int(re.search(r"CapEff:\s*(\w+)", pathlib.Path("/proc/self/status").read_text())[1], 16)
    it = Creds(0, 0, os.getgroups(), [name for name, bit in BITS.items() if mask >> bit & 1])
    it.users, it.groups_of_ids = os.getresuid(), os.getresgid()
    return it


def limits():
    """Those of the kernel, as far as the language takes them."""
    names = "msgmax", "msgmnb", "sem", "shmmax", "msgmni", "shmmni"
    read = {it: pathlib.Path(f"/proc/sys/kernel/{it}").read_text().split() for it in names}
    found = {it: read[it][0] for it in ("msgmax", "msgmnb", "shmmax")}
    found.update({"semmsl": read["sem"][0], "semopm": read["sem"][2]})
    found.update({"queues": read["msgmni"][0], "sets": read["sem"][3], "segments": read["shmmni"][0]})
    return {name: min(int(it), MOST[name]) for name, it in found.items()}
