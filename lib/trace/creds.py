"""Credentials of processes, as the trace tells them: what the calls that read them answered, and what those that change them left.

Whether such a call is granted isn't decided here: what the kernel answered is followed."""

import re

from c_words import BITS
from values import NotTaken, number32, numbers, parts

CAPABILITIES = tuple(BITS)
# How many arguments each call has that reads credentials, and each that changes them.
READERS = {"getuid": 0, "geteuid": 0, "getgid": 0, "getegid": 0, "getresuid": 3, "getresgid": 3, "getgroups": 2, "capget": 2}
SETTERS = {"setuid": 1, "setgid": 1, "setreuid": 2, "setregid": 2, "setresuid": 3, "setresgid": 3, "setgroups": 2, "capset": 2}
KEEP = -1


class Creds:
    """Users and groups, each real, effective and saved, the supplementary groups, and capabilities, permitted and effective."""

    def __init__(self, user, group, groups=(), caps=frozenset()):
        self.users, self.groups_of_ids, self.groups = (user,) * 3, (group,) * 3, tuple(groups)
        self.caps = self.permitted = frozenset(caps)

    def copy(self):
        it = Creds(0, 0)
        it.__dict__.update(self.__dict__)
        return it

    @property
    def user(self):
        return self.users[1]

    @property
    def group(self):
        return self.groups_of_ids[1]

    def key(self):
        return self.users, self.groups_of_ids, tuple(sorted(set(self.groups))), self.caps

    def with_users(self, users):
        """Other users, and what that leaves of capabilities (capabilities(7), effect of user ID changes)."""
        before, self.users = self.users, users
        if 0 in before and 0 not in users:
            self.permitted = self.caps = frozenset()
        elif before[1] == 0 and users[1] != 0:
            self.caps = frozenset()
        elif before[1] != 0 and users[1] == 0:
            self.caps = self.permitted

    def save(self):
        """As execve does, makes the effective user and group the saved ones."""
        self.users = self.users[:2] + (self.user,)
        self.groups_of_ids = self.groups_of_ids[:2] + (self.group,)

    def after_exec(self, all_caps):
        """What execve leaves: user 0 has all capabilities, another one none."""
        self.save()
        self.permitted = all_caps if 0 in self.users[:2] else frozenset()
        self.caps = all_caps if self.user == 0 else frozenset()

    def __str__(self):
        groups = f", groups {','.join(map(str, sorted(set(self.groups))))}" if self.groups else ""
        caps = "all capabilities" if len(self.caps) == len(CAPABILITIES) else f"capabilities {','.join(sorted(self.caps))}" if self.caps else "no capabilities"
        return f"user {self.user}, group {self.group}{groups}, {caps}"


def caps_of(word):
    """Those of a set of capabilities that System V IPC asks for: 1<<CAP_X|.. or a number."""
    named = {it for it in CAPABILITIES if re.search(rf"\bCAP_{it}\b", word)}
    if not named and re.fullmatch(r"0x[0-9a-f]+", word):
        named = {it for it in CAPABILITIES if int(word, 16) >> BITS[it] & 1}
    return frozenset(named)


def cap_sets(word):
    """The effective and the permitted capabilities of a structure of capget or capset."""
    fields = dict(it.split("=", 1) for it in parts(word.strip("{}")) if "=" in it)
    if "effective" not in fields:
        raise NotTaken("strace didn't write the capabilities")
    return caps_of(fields["effective"]), caps_of(fields.get("permitted", fields["effective"]))


def one(word):
    return ident(number32(word.strip("[]")))


def ident(found):
    """A user or a group, which has 32 bits and no sign."""
    if not 0 <= found < 2**32:
        raise NotTaken(f"{found} is no user or group")
    return found


def read_into(creds, call):
    """What a call that reads credentials tells of them."""
    words, users, groups = call.words, list(creds.users), list(creds.groups_of_ids)
    if call.name in ("getuid", "geteuid"):
        users[call.name == "geteuid"] = ident(call.answer)
    elif call.name in ("getgid", "getegid"):
        groups[call.name == "getegid"] = ident(call.answer)
    elif call.name == "getresuid":
        users = [one(it) for it in words]
    elif call.name == "getresgid":
        groups = [one(it) for it in words]
    elif call.name == "getgroups" and (call.answer == 0 or words[0] != "0"):
        creds.groups = tuple(map(ident, numbers(words[1]))) if call.answer else ()
    elif call.name == "capget" and re.search(r"pid=0\b", words[0]):
        creds.caps, creds.permitted = cap_sets(words[1])
    creds.users, creds.groups_of_ids = tuple(users), tuple(groups)


def changed_ids(name, words, now, has_cap):
    """The real, the effective and the saved one after a granted call on users, or on groups."""
    wanted = [KEEP if number32(it) in (KEEP, 2**32 - 1) else ident(number32(it)) for it in words]
    if name in ("setuid", "setgid"):
        return (wanted[0],) * 3 if has_cap else (now[0], wanted[0], now[2])
    real = now[0] if wanted[0] == KEEP else wanted[0]
    effective = now[1] if wanted[1] == KEEP else wanted[1]
    if name in ("setresuid", "setresgid"):
        return real, effective, now[2] if wanted[2] == KEEP else wanted[2]
    changes_saved = wanted[0] != KEEP or (wanted[1] != KEEP and effective != now[0])
    return real, effective, effective if changes_saved else now[2]


def followed(creds, call):
    """The credentials after a granted call that changes them."""
    it = creds.copy()
    if call.name == "setgroups":
        it.groups = tuple(map(ident, numbers(call.words[1]))) if number32(call.words[0]) else ()
    elif call.name == "capset":
        it.caps, it.permitted = cap_sets(call.words[1])
    elif call.name in ("setuid", "setreuid", "setresuid"):
        it.with_users(changed_ids(call.name, call.words, it.users, "SETUID" in it.caps))
    else:
        it.groups_of_ids = changed_ids(call.name, call.words, it.groups_of_ids, "SETGID" in it.caps)
    return it


def asked(creds, call):
    """What a call asks for: the users, the groups and the supplementary groups, as they would be after it, None where these stay."""
    it = followed(creds, call)
    return it.users, it.groups_of_ids, it.groups if call.name == "setgroups" else None
