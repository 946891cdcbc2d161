"""A script as people write it, and the exact one that comes of it."""

import re

import forms
import names
from cut import Words

CLIENT = re.compile(r"^[ \t]*client[ \t]+([^ \t\n]+)", re.M)
LINUX = ["queues 32000", "sets 32000", "segments 4096", "msgmax 8192", "msgmnb 16384", "semmsl 32000", "semopm 500", "shmmax 1073741824"]


class Line:
    """What comes of a line: the lines in its place, and what can't be read in it, as pairs of a column and a text."""

    __slots__ = ("told", "end", "faults", "client", "is_client", "is_call", "cut", "words")

    def __init__(self, text, end, clients):
        self.told, self.end, self.faults = [text], end, []
        # Whose line it is, and whether it is a good client line, or a good call.
        self.client, self.is_client, self.is_call = None, False, False
        self.cut, self.words = Words(text), []
        if self.cut.words == ["limits", "linux"]:
            self.tell(self.cut, [f"limit {it}" for it in LINUX])
        elif self.cut.words:
            self.words = self.rewrite(self.cut, clients)
        if self.told == [text]:
            self.cut, self.words = None, []

    def rewrite(self, cut, clients):
        """Replaces the name of the client, and the arguments. It gives the words that stand there then."""
        words, place = list(cut.words), 1 if cut.words[0] == "client" else 0
        self.client = clients.get(words[place]) if place < len(words) else None
        if self.client:
            words[place] = self.client
        form, begin = form_of(words, self.client)
        if form:
            found = forms.read(form, form.with_clients(words[begin:], clients))
            words[begin:] = found.words
            self.faults = [(cut.column(begin + at) + why.place, str(why)) for at, why in found.faults]
            self.is_client = found.is_good and place == 1 and self.client is not None
            self.is_call = found.is_good and begin == 2
        if form or self.client:
            self.tell(cut, [cut.replaced(words)])
        return words

    def column(self, column):
        """The column of the word that is told in this column."""
        shift = 0
        if not self.cut:
            return column
        for it, word in zip(self.cut.found, self.words):
            if column <= it.start() + shift + len(word):
                return it.start() + 1 if word != it[0] else max(column - shift, it.start() + 1)
            shift += len(word) - len(it[0])
        return column - shift

    def tell(self, cut, lines):
        self.told = lines if cut.comment is None else [cut.comment, *lines]

    def written(self, end):
        return (end or "\n").join(self.told) + end


def form_of(words, client):
    """The form of a line, and how many words stand before its arguments."""
    if words[0] in forms.DIRECTIVES:
        return forms.DIRECTIVES[words[0]], 1
    return forms.CALLS.get(words[1]) if client and len(words) > 1 else None, 2


def lines_of(text, clients):
    *whole, last = text.split("\n")
    found = [Line(it[:-1], "\r\n", clients) if it[-1:] == "\r" else Line(it, "\n", clients) for it in whole]
    return found + [Line(last, "", clients)] if last else found


def with_clients_first(lines):
    """The lines in an order in which no client line comes after the first call."""
    known = {it.client for it in lines if it.is_client}
    first = next((index for index, it in enumerate(lines) if it.is_call and it.client in known), len(lines))
    late = [it for it in lines[first:] if it.is_client]
    return lines[:first] + late + [it for it in lines[first:] if not it.is_client]


def read(text):
    """The lines of a script, each with the exact ones in its place."""
    return lines_of(text, names.renamed(CLIENT.findall(text)))


def exact(lines):
    """The exact script of these lines."""
    lines = with_clients_first(lines)
    ends = [it.end or "\n" for it in lines[:-1]] + [it.end for it in lines[-1:]]
    return "".join(it.written(end) for it, end in zip(lines, ends))


def rewritten(text):
    """The exact script, and what can't be read, as triples of a line, a column and a text."""
    found = Exact(text)
    return found.text, found.faults


class Exact:
    """The exact script of a text, and where that has what stands in it."""

    def __init__(self, text):
        lines = read(text)
        numbers = {id(it): number for number, it in enumerate(lines, 1)}
        self.text = exact(lines)
        self.faults = [(number, *fault) for number, it in enumerate(lines, 1) for fault in it.faults]
        self.origins = [(numbers[id(it)], it) for it in with_clients_first(lines) for _ in it.told]

    def line(self, number):
        """The line of the text that this one comes from."""
        return self.origins[number - 1][0]

    def is_rewritten(self, number):
        """This line isn't as it was written."""
        return self.origins[number - 1][1].cut is not None

    def column(self, number, column):
        """The column of the text that this one of a line comes from."""
        return self.origins[number - 1][1].column(column)

    def last(self, line):
        """The last line that comes from this one of the text."""
        return max((number for number, (origin, _) in enumerate(self.origins, 1) if origin == line), default=0)
