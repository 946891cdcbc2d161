"""Which program a command runs, as lib/build.sh chooses."""

import os
import pathlib
import subprocess

TOP = pathlib.Path(__file__).resolve().parent.parent
CHOOSE = 'set -eu; top=$1; . "$top/lib/build.sh"; choose "$2" "$3" ""; printf "%s\\n" "$program" "${GLIBC_TUNABLES-}"'
# The crate of each command's program, and the variable that names another program.
CRATES = {
    "ipcsh": ("ipcsh_cli", "IPCSH_PROGRAM"),
    "ipcsh_explain": ("ipcsh_explain", "IPCSH_EXPLAIN_PROGRAM"),
    "ipcsh_journal": ("ipcsh_journal", "IPCSH_JOURNAL_PROGRAM"),
    "ipcsh_trace": ("ipcsh_cli", "IPCSH_PROGRAM"),
    "ipcwho": ("ipcwho", "IPCWHO_PROGRAM"),
}


class NotBuilt(Exception):
    """There is no program; why has been told."""

    status = 70


def chosen(command):
    """The program that the command takes now, as each later run does. One that has to be built is built here."""
    crate, variable = CRATES[command]
    if not os.environ.get(variable):
        words = ["sh", "-c", CHOOSE, "sh", TOP, command, crate]
        it = subprocess.run(words, stdin=subprocess.DEVNULL, stdout=subprocess.PIPE, check=False)
        if it.returncode:
            raise NotBuilt(f"there is no program for {command}")
        program, tunables = os.fsdecode(it.stdout).splitlines()
        os.environ.update({variable: program, **({"GLIBC_TUNABLES": tunables} if tunables else {})})
    return os.environ[variable]
