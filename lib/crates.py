"""The crates of the repository, and runs of the prover over the libraries that 'rt ci' has proved.

    crates.py archive CRATE     builds a library for C, out/libCRATE.a in its folder
"""

import functools
import os
import pathlib
import shutil
import subprocess
import sys

TOP = pathlib.Path.cwd()
KIT = pathlib.Path(os.path.realpath(shutil.which("rt") or sys.exit("the command rt is not on the path"))).parent.parent
LOGIC = ["--antt-project", KIT / "rattle/logic/antt-project.json", "--logic-built", KIT / "logic_built"]
PARTS = ("src", "specs", "proofs")


class Crates:
    """The crates of the repository by crates.txt, lowest first, with what each stands on, and libraries in place of their own."""

    def __init__(self):
        lines = ((TOP / "crates.txt").read_text(encoding="utf-8")).splitlines()
        parts = (line.partition("#")[0].partition(":") for line in lines)
        self.uses = {name.split()[0]: libraries.split() for name, _, libraries in parts if name.strip()}
        self.replaced = {}

    def below(self, crate):
        """The crates of the repository that a crate stands on, through others too."""
        found = [name for name in self.uses[crate] if name in self.uses]
        return {*found, *(lower for name in found for lower in self.below(name))}

    def library(self, name):
        own = self.replaced.get(name) or TOP / f"crates/{name}/out/rlib/{name}.rlib"
        return own if name in self.uses else KIT / f"rlibs/{name}.rlib"

    def run(self, verb, crate, folder, flags):
        """Runs the prover on a crate, or on a copy of it, and returns what it said."""
        lacking = sorted(name for name in self.below(crate) if name not in self.replaced and is_older(name, self.library(name)))
        if lacking:
            sys.exit(f"the library of {lacking[0]} isn't there, or is older than its sources: run rt ci first")
        words = [KIT / "bin/rattle", verb, "--crate-name", crate, "src/lib.rt"]
        for name in ["std", *self.uses[crate]]:
            words += ["--extern", f"{name}={self.library(name)}"]
        for path in [KIT / "rlibs", *(self.library(name).parent for name in self.below(crate))]:
            words += ["-L", f"dependency={path}"]
        how = {"cwd": folder, "stdin": subprocess.DEVNULL, "stdout": subprocess.PIPE, "stderr": subprocess.STDOUT}
        return subprocess.run([str(it) for it in [*words, *LOGIC, *flags, "--jobs", "1"]], text=True, errors="replace", **how).stdout


@functools.cache
def is_older(crate, library):
    """A library isn't there, or a source of its crate was changed since it came to its place, where it may be a copy of an older one."""
    made = library / "format"
    sources = (it for part in PARTS for it in (TOP / "crates" / crate / part).rglob("*") if it.is_file())
    return not made.is_file() or any(it.stat().st_mtime > made.stat().st_ctime for it in sources)


def build_archive(crate):
    """Proves and builds a library for C, and returns whether that is done."""
    folder = TOP / "crates" / crate
    archive = folder / f"out/lib{crate}.a"
    archive.unlink(missing_ok=True)
    flags = ["--crate-type", "staticlib", "--links", f"{crate}=", "--toolchain", KIT / "toolchain", "--backend", "llvm", "-o", archive]
    print(Crates().run("build", crate, folder, flags), end="")
    return archive.is_file()


if __name__ == "__main__":
    if len(sys.argv) != 3 or sys.argv[1] != "archive":
        sys.exit("usage: crates.py archive CRATE")
    sys.exit(not build_archive(sys.argv[2]))
