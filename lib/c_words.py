"""Words of C that stand in traces and in scripts for people: flags and capabilities by name, and strings."""

import re

FLAGS = {"IPC_CREAT": 0o1000, "IPC_EXCL": 0o2000, "IPC_NOWAIT": 0o4000, "SEM_UNDO": 0o10000}
FLAGS.update({"MSG_NOERROR": 0o10000, "MSG_EXCEPT": 0o20000, "MSG_COPY": 0o40000})
FLAGS.update({"SHM_RDONLY": 0o10000, "SHM_RND": 0o20000, "SHM_REMAP": 0o40000, "SHM_EXEC": 0o100000})
FLAGS.update({"SHM_HUGETLB": 0o4000, "SHM_NORESERVE": 0o10000})
# The capabilities of the language, each with its number in capabilities(7).
BITS = {"SETGID": 6, "SETUID": 7, "IPC_OWNER": 15, "SYS_ADMIN": 21, "SYS_RESOURCE": 24}
ESCAPES = {"n": 10, "t": 9, "r": 13, "v": 11, "f": 12, "a": 7, "b": 8, "e": 27, "\\": 92, '"': 34}


def unescaped(body):
    """The bytes of a C string's body."""
    found = bytearray()
    for it in re.finditer(r"\\x([0-9a-fA-F]{1,2})|\\([0-7]{1,3})|\\(.)|(.)", body, re.S):
        if it[1]:
            found.append(int(it[1], 16))
        elif it[2]:
            found.append(int(it[2], 8) & 255)
        else:
            found.append(ESCAPES.get(it[3], ord(it[3][0]) & 255) if it[3] else ord(it[4]) & 255)
    return bytes(found)
