"""Scripts as people write them: the exact one runs, and what is told of its lines names those that were written."""

import re
import textwrap

import script

# What a program tells of a line, in a row, above one, in a note below it and in a message.
BAD_ROW = re.compile(rb"(> )?line ([0-9]+): ")
NOTE = re.compile(rb"    column ([0-9]+): ")
MESSAGE = re.compile(r"(?P<head>\w+: )line (?P<line>[0-9]+): (?:column (?P<column>[0-9]+): )?")
OTHER_LINE = re.compile(r"\bline ([0-9]+)\b")
# The number of such a line where a note is folded before it.
FOLDED_LINE = re.compile(r"^ {6}([0-9]+)\b")
# How the line above a row is folded.
FOLDING = {"initial_indent": "> ", "subsequent_indent": ">   ", "break_long_words": False, "break_on_hyphens": False}


class Reading:
    """A script that was read, and what is told of its lines."""

    def __init__(self, written):
        self.exact = script.Exact(written.decode("latin-1"))
        self.text = self.exact.text.encode("latin-1")
        self.is_same = self.text == written
        self.lines = written.split(b"\n")
        self.lines_at_fault = {line for line, _, _ in self.exact.faults}
        self.row_of = 0
        self.ends_in_line = self.is_told_whole = False

    def faults(self):
        """What can't be read, as lines of a message."""
        for line, column, why in self.exact.faults:
            yield f"line {line}: column {column}: {why.encode('latin-1').decode('utf-8', 'backslashreplace')}"

    def row(self, row):
        """A row, a line above one, or a note below it; what is folded of a line is told with it."""
        bad, note = BAD_ROW.match(row), NOTE.match(row)
        if bad and bad[1]:
            return self.above(int(bad[2]), row[bad.end() :])
        if row.startswith(b">   "):
            return b"" if self.is_told_whole else row
        if bad:
            self.row_of = int(bad[2])
            return b"line %d: %b" % (self.exact.line(self.row_of), row[bad.end() :])
        if not row.startswith(b"    "):
            self.row_of = 0
            return row
        if not note:
            return self.others(row)
        # Of a good line it isn't told here which one that is.
        place = b"column %d: " % self.exact.column(self.row_of, int(note[1])) if self.row_of else b""
        return b"    " + place + self.others(row[note.end() :])

    def above(self, number, text):
        """The line above a row: as it was written where it was rewritten, and else as the program shows it."""
        line, self.is_told_whole = self.exact.line(number), self.exact.is_rewritten(number)
        if not self.is_told_whole:
            return b"> line %d: %b" % (line, text)
        written = self.lines[line - 1].decode("utf-8", "backslashreplace")
        shown = "".join(it if it.isprintable() else " " for it in f"line {line}: {written}")
        return f"{textwrap.fill(shown, 80, **FOLDING)}\n".encode()

    def others(self, note):
        """A note with the lines that it names besides."""
        text = note.decode("latin-1")
        if self.ends_in_line:
            text = FOLDED_LINE.sub(lambda it: f"      {self.exact.line(int(it[1]))}", text)
        self.ends_in_line = text.endswith(" line\n")
        return OTHER_LINE.sub(self.other, text).encode("latin-1")

    def message(self, text):
        """A message; '' for one of a line of which is told already what can't be read in it."""
        found = MESSAGE.match(text)
        if not found:
            return OTHER_LINE.sub(self.other, text)
        line = self.exact.line(int(found["line"]))
        if line in self.lines_at_fault:
            return ""
        column = f"column {self.exact.column(int(found['line']), int(found['column']))}: " if found["column"] else ""
        return f"{found['head']}line {line}: {column}{OTHER_LINE.sub(self.other, text[found.end():])}"

    def other(self, found):
        return f"line {self.exact.line(int(found[1]))}"
