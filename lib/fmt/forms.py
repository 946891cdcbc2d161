"""The directives and calls of the language, each with the sorts of its arguments. All rewriting of arguments follows from this."""

import sorts

SORTS = {
    "att": sorts.number_32,
    "caps=": sorts.caps,
    "client": sorts.client,
    "count": sorts.number_32,
    "flags": sorts.flags(32),
    "group": sorts.group,
    "groups=": sorts.groups,
    "id": sorts.number_32,
    "key": sorts.key,
    "kind": sorts.kind,
    "length": sorts.number_64,
    "mode": sorts.flags(32),
    "name": sorts.any_word,
    "num": sorts.number_32,
    "op": sorts.operation,
    "pid": sorts.number_32,
    "saved=": sorts.saved,
    "seconds": sorts.number_64,
    "size": sorts.size,
    "target": sorts.process_or_client,
    "text": sorts.text,
    "type": sorts.signed(64),
    "user": sorts.user,
    "value": sorts.signed(32),
    "words": sorts.any_word,
}


class Form:
    """What follows the word of a call or a directive: these sorts, then some of those in brackets, or any count of the one with dots."""

    def __init__(self, words):
        self.takes = [it for it in words if it[0] != "[" and it[-2:] != ".."]
        self.options = [it[1:-1] for it in words if it[0] == "["]
        self.more = next((it[:-2] for it in words if it[-2:] == ".."), None)

    def names_for(self, words):
        """The name of the sort of each word, None for one too many."""
        behind = words[len(self.takes) :]
        return self.takes[: len(words)] + ([self.more] * len(behind) if self.more else self.options_for(behind))

    def with_clients(self, words, clients):
        """The words, in which another client has its name of the exact language."""
        names = self.names_for(words)
        return [clients.get(word, word) if name in ("client", "target") else word for word, name in zip(words, names)]

    def options_for(self, words):
        rest, found = list(self.options), []
        for word in words:
            while rest and rest[0][-1] == "=" and not word.startswith(rest[0]):
                rest.pop(0)
            found.append(rest.pop(0) if rest else None)
        return found


def table(text):
    return {call: Form(takes) for call, *takes in (it.split() for it in text.split("\n") if it.strip())}


DIRECTIVES = table("""
    client      name user group [groups=] [caps=] [saved=]
    limit       name size
    clock       seconds
""")
CALLS = table("""
    msgget      key flags
    msgsnd      id type text flags
    msgrcv      id length type flags
    semget      key count flags
    semop       id op..
    semtimedop  id seconds op..
    getval      id num
    getpid      id num
    getncnt     id num
    getzcnt     id num
    getall      id
    setval      id num value
    setall      id value..
    shmget      key size flags
    shmat       id flags
    shmdt       att
    shmread     att length length
    shmwrite    att length text
    stat        kind id
    set         kind id user group mode [length]
    rmid        kind id
    interrupt   target
    kill        pid
    setcreds    user group [groups=]
    assume      user group [groups=] [caps=] [saved=]
    begin       pid user group [groups=] [caps=] [saved=]
    fork        client pid
    clone       client
    name        pid
    exec
    exit
    ipcs        words..
    ipcrm       words..
    ipcmk       words..
""")


class Read:
    """What comes of the words behind a call or a directive: a word that can't be read stays. `faults` has the index of each that is told,
    and why; the words are good where they are then what the form takes."""

    def __init__(self, words, is_good):
        self.words, self.faults, self.is_good = words, [], is_good


def read(form, words):
    """The words as read by the form."""
    names = form.names_for(words)
    fits = len(words) >= len(form.takes) and None not in names
    it = Read(list(words), fits)
    for index, (word, name) in enumerate(zip(words, names)):
        # Where a word is lacking, or one too many, a text without quotes may be something else.
        if name == "text" and not fits and word[0] != '"':
            name = None
        try:
            exact = SORTS[name](word) if name else None
        except sorts.Unread as why:
            it.faults.append((index, why))
            exact = None
        it.words[index] = exact or word
        it.is_good = it.is_good and exact is not None
    return it
