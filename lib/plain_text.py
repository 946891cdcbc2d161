"""What stands in a document, for a terminal."""

import re
import textwrap

WIDTH = 80


def plain(text):
    """Without the marks of a document, on one line."""
    text = re.sub(r"<a id=[^>]*></a>|\*\*|`", "", text)
    return " ".join(re.sub(r"\[([^]]*)\]\([^)]*\)", r"\1", text).split())


def wrapped(text):
    return textwrap.fill(text, WIDTH, break_long_words=False, break_on_hyphens=False)
