#!/usr/bin/env python3
"""links.py DOCUMENT..: follows the links of documents. A link names a file that is there, and after `#` a heading or an
anchor of it; where the words before a link are a name in backquotes and `in`, the file has this name as a word. Pages
of the web aren't asked for. Prints a line for each link that is wrong; the status is then 1."""
import functools
import os
import re
import sys

LINK = re.compile(r"(?:`([^`]+)` in )?!?\[[^]]*\]\(([^) ]*)\)")


def without_blocks(text):
    """The text, with lines of code blocks left empty."""
    inside, lines = False, []
    for line in text.split("\n"):
        fence = line.startswith("```")
        lines.append("" if inside or fence else line)
        inside ^= fence
    return "\n".join(lines)


def slug(heading):
    """The anchor of a heading, as hosts of repositories make it."""
    plain = re.sub(r"[^\w\- ]", "", heading.strip().lower())
    return plain.replace(" ", "-")


@functools.lru_cache(maxsize=None)
def text_of(file):
    with open(file, encoding="utf-8") as it:
        return it.read()


@functools.lru_cache(maxsize=None)
def anchors_of(file):
    text = without_blocks(text_of(file))
    headings = {slug(it) for it in re.findall(r"^#+ +(.*)$", text, re.M)}
    return headings | set(re.findall(r'<a id="([^"]+)"', text))


def wrong(document, name, target):
    """Why the link is wrong, or None."""
    path, _, anchor = target.partition("#")
    if re.match(r"[a-z]+:", path):
        return None
    file = os.path.normpath(os.path.join(os.path.dirname(document), path)) if path else document
    if not os.path.exists(file):
        return f"there is no {file}"
    if anchor and anchor not in anchors_of(file):
        return f"{file} has no '#{anchor}'"
    if name and os.path.isfile(file) and not re.search(rf"(?<!\w){re.escape(name)}(?!\w)", text_of(file)):
        return f"{file} has no '{name}'"
    return None


def main():
    found = False
    for document in sys.argv[1:]:
        for number, line in enumerate(without_blocks(text_of(document)).split("\n"), 1):
            for name, target in LINK.findall(line):
                why = wrong(document, name, target)
                if why:
                    found = True
                    print(f"{document}:{number}: {why}")
    return found


sys.exit(main())
