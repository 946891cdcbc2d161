"""The words of a line."""

import re

# A comment; a text in quotes; operations as strace writes them; flags with blanks around `|`; any other word.
WORD = re.compile(
    r'#.*|"(?:[^"\\]|\\.)*"(?![^ \t])|\[\{[^\]]*\}\](?![^ \t])|(?:\d\w*:[-+]?\w+:)?\w+(?:[ \t]*\|[ \t]*\w+)+(?![^ \t])|[^ \t]+', re.A
)


class Words:
    """A line that is cut into words, and the comment behind them."""

    def __init__(self, text):
        self.text, self.found, self.comment, self.end = text, list(WORD.finditer(text)), None, len(text)
        if self.found and self.found[-1][0][0] == "#":
            last = self.found.pop()
            self.comment, self.end = last[0], last.start()
        self.words = [it[0] for it in self.found]

    def column(self, index):
        return self.found[index].start() + 1

    def replaced(self, words):
        """The line with these words in the place of its own, and without its comment."""
        if words == self.words and self.comment is None:
            return self.text
        parts, at = [], 0
        for it, word in zip(self.found, words):
            parts += [self.text[at : it.start()], word]
            at = it.end()
        return "".join(parts) + (self.text[at:] if self.comment is None else "")
