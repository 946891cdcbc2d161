#!/usr/bin/env python3
"""man_pages.py FOLDER: makes the man pages of the commands, ipcsh.3, ipcsh.5 and sysvipc-rules.7 of the documents, in this folder. They are
kept in man/, and ./check docs finds them current. A table becomes a list, as a terminal has no room for its columns."""
import os
import re
import sys

TOP = os.path.dirname(os.path.dirname(os.path.abspath(__file__)))


# Names of columns that tell no more than their cells.
PLAIN = ("", "When", "What", "Is", "Of", "Limit", "Command", "Meaning", "What it does")


def document(name):
    with open(os.path.join(TOP, name), encoding="utf-8") as it:
        return it.read()


def sections(text, level=2):
    """The sections of a document by heading; what stands before the first has the name ''."""
    found, name, inside = {"": []}, "", False
    for line in text.split("\n"):
        inside ^= line.startswith("```")
        if not inside and line.startswith("#" * level + " "):
            name = line[level + 1 :]
            found[name] = []
        else:
            found[name].append(line)
    return {it: "\n".join(lines).strip("\n") for it, lines in found.items()}


def escaped(text):
    return text.replace("\\", "\\e").replace("-", "\\-").replace("'", "\\(aq").replace("`", "\\(ga").replace("^", "\\(ha").replace("~", "\\(ti")


def pointed_to(words, target):
    """What stands in the place of a link: a page that is a man page too, another document's file, or the link's words."""
    name = os.path.basename(target.partition("#")[0])
    pages = {"PROFILE.md": "sysvipc-rules(7)", "LANGUAGE.md": "ipcsh(5)", "IPCWHO.md": "ipcwho(1)", "IPCRUN.md": "ipcrun(1)", "TRACE.md": "ipcsh_trace(1)", "EXPLAIN.md": "ipcsh_explain(1)", "JOURNAL.md": "ipcsh_journal(1)", "FMT.md": "ipcsh_fmt(1)", "C.md": "ipcsh(3)", "PROMPT.md": "ipcsh(1)", "JSON.md": "ipcsh(1)"}
    if name in pages:
        return pages[name]
    return "docs/" + name if words + ".md" == name else words


def inline(text):
    """A paragraph's text: code and bold words are bold, a link is its words."""
    text = re.sub(r'<a id="[^"]*"></a>', "", text)
    text = re.sub(r"!\[[^]]*\]\([^)]*\)", "", text)
    text = re.sub(r"\[([^]]*)\]\(([^)]*)\)", lambda it: pointed_to(it[1], it[2]), text)
    parts = re.split(r"(`[^`]+`|\*\*.+?\*\*)", text)
    said = ""
    for part in parts:
        if part.startswith("`") and len(part) > 2:
            said += f"\\fB{escaped(part[1:-1])}\\fR"
        elif part.startswith("**"):
            said += f"\\fB{escaped(part[2:-2].replace('`', ''))}\\fR"
        else:
            said += part.replace("\\", "\\e")
    return guarded(said.strip())


def guarded(line):
    """A line of text that groff doesn't take for a request."""
    return "\\&" + line if line[:1] in (".", "'") else line


def cells(line):
    return [it.strip().replace("\\|", "|") for it in re.split(r"(?<!\\)\|", line.strip().strip("|"))]


def table(lines):
    """Each row is a paragraph with its first cell as the tag. Of more than two columns each cell has the column's name."""
    heads = cells(lines[0])
    said = []
    for line in lines[2:]:
        row = cells(line)
        first = 1
        if heads[:3] == ["Number", "Error", "Name"]:
            row[2] = f"{row[1]} {row[0]} {row[2]}"
            first = 3
        tag = inline(row[first - 1]) or "\\&"
        told = [(head, it) for head, it in zip(heads[first:], row[first:]) if it]
        if len(heads) == 2:
            body = "".join(it for _, it in told)
        else:
            body = "; ".join(it if head in PLAIN else f"{head}: {it}" for head, it in told)
        said += [".TP", tag, inline(body) or "\\&"]
    return said


def listed(lines):
    """Items that begin with `- ` or with a number; what is indented goes on with the item before."""
    items = []
    for line in lines:
        begins = re.match(r"(-|\d+\.) +(.*)", line)
        if begins:
            items.append([begins[1], begins[2]])
        else:
            items[-1][1] += " " + line.strip()
    said = []
    for mark, text in items:
        said += [".IP \\(bu 2" if mark == "-" else f".IP {mark} 4", inline(text)]
    return said


def block_of_code(lines):
    return [".PP", ".in +4n", ".nf", *(guarded(escaped(it)) for it in lines), ".fi", ".in"]


def paragraph(lines):
    first = lines[0]
    if first.startswith("#"):
        return [".SS " + inline(first.lstrip("# "))]
    if first.startswith("|"):
        return table(lines)
    if re.match(r"(-|\d+\.) ", first):
        return listed(lines)
    text = inline(" ".join(it.strip() for it in lines))
    return [".PP", text] if text and not text.startswith("Contents:") else []


def roff(text):
    """The text of a section, as lines for groff."""
    said, block, code = [], [], None

    def end():
        if block:
            said.extend(paragraph(block))
            block.clear()

    for line in text.split("\n") + [""]:
        if line.startswith("```"):
            end()
            if code is not None:
                said.extend(block_of_code(code))
            code = [] if code is None else None
        elif code is not None:
            code.append(line)
        elif not line.strip():
            end()
        else:
            if line.startswith("#"):
                end()
            block.append(line)
            if line.startswith("#"):
                end()
    return said


def page(name, number, about, parts):
    version = document("VERSION").strip()
    said = [
        ".\\\" Made by lib/man_pages.py of the documents; a change belongs there.",
        f'.TH {name} {number} "" "ipcsh {version}" "System V IPC in user space"',
        ".ad l",
        ".nh",
        ".SH NAME",
        f"{escaped(name)} \\- {about}",
    ]
    for head, text in parts:
        said += [".SH " + inline(head).upper().replace("\\FB", "\\fB").replace("\\FR", "\\fR"), *roff(text)]
    return "\n".join(said) + "\n"


def commands():
    """The help of each command of lib/front."""
    folder = "lib/front/help"
    names = sorted(os.listdir(os.path.join(TOP, folder)))
    return "\n\n".join(f"### ipcsh {name}\n\n```text\n{document(os.path.join(folder, name))}```" for name in names)


def command():
    readme, language, prompt, objects = (sections(document(it)) for it in ("README.md", "docs/LANGUAGE.md", "docs/PROMPT.md", "docs/JSON.md"))
    about = readme[""].split("\n\n", 1)[1].split("\n\nIt is for you")[0]
    parts = [
        ("Synopsis", "```text\nipcsh\nipcsh [threads] < SCRIPT\nipcsh COMMAND [WORD..]\nipcsh --help\nipcsh --version\n```"),
        ("Description", about + "\n\nThe language of scripts is in ipcsh(5), and the rules of behaviour are in sysvipc\\-rules(7).".replace("\\", "")),
        ("Example", readme["An owner who is denied"].split("\n\n[examples/]")[0]),
        ("Commands", commands()),
        ("At a terminal", prompt["What can be typed"]),
        ("JSON", "\n\n".join([objects[""].split("\n\n", 1)[1], *(f"### {it}\n\n{objects[it]}" for it in ("run, explain", "Other commands"))])),
        ("What it isn't", readme["What it isn't"]),
        ("Exit status", language["How the program ends"]),
        ("Environment", language["Before the program is built"]),
        ("See also", "ipcsh(5), sysvipc-rules(7), ipcsh_fmt(1), ipcsh_explain(1), ipcwho(1), ipcrun(1), ipcsh_trace(1), ipcsh_journal(1), ipcs(1), ipcmk(1), ipcrm(1), svipc(7)"),
    ]
    return page("ipcsh", 1, "run scripts of System V IPC calls, and tell why each is refused", parts)


def language():
    found = sections(document("docs/LANGUAGE.md"))
    left = ("How the program ends", "Before the program is built")
    parts = [("Description" if not name else name, text.split("\n\n", 1)[1] if not name else text) for name, text in found.items() if name not in left]
    parts.append(("See also", "ipcsh(1), sysvipc-rules(7)"))
    return page("ipcsh", 5, "the language of scripts, and the rows that ipcsh(1) prints", parts)


def rules():
    found = sections(document("docs/PROFILE.md"))
    parts = [("Description" if not name else name, text.split("\n\n", 1)[1] if not name else text) for name, text in found.items()]
    parts.append(("See also", "ipcsh(1), ipcsh(5), msgop(2), semop(2), shmop(2), svipc(7), capabilities(7), credentials(7)"))
    return page("sysvipc-rules", 7, "rules of System V IPC as ipcsh(1) follows them, with their sources", parts)


def tool(name, file, about, synopsis, others, number=1):
    """The page of a command, or of the library, that has a document of its own."""
    found = sections(document(file))
    parts = [("Synopsis", "```text\n" + "\n".join(synopsis) + "\n```")]
    parts += [("Description" if not head else head, text.split("\n\n", 1)[1] if not head else text) for head, text in found.items()]
    return page(name, number, about, [*parts, ("See also", others)])


def who():
    words = ["ipcwho [--proc DIR] [PID..]", "ipcwho [--proc DIR] --why PID KIND ID", "ipcwho [--proc DIR] --orphans [PID..]", "ipcwho --help", "ipcwho --version"]
    return tool("ipcwho", "docs/IPCWHO.md", "who may do what to the System V IPC objects of this machine", words, "ipcs(1), ipcsh(1), sysvipc-rules(7), sysvipc(7), proc(5), capabilities(7)")


def run():
    words = ["ipcrun [--script FILE] PROGRAM [ARGUMENT..]", "ipcrun --help"]
    return tool("ipcrun", "docs/IPCRUN.md", "run a program whose System V IPC calls are answered by ipcsh(1)", words, "ipcsh(1), ipcsh(5), sysvipc-rules(7), ld.so(8), svipc(7)")


def trace():
    words = ["ipcsh_trace [--script] [OPTION..] [FILE..]", "ipcsh_trace [--script] [OPTION..] --record PROGRAM [ARGUMENT..]", "ipcsh_trace --help"]
    return tool("ipcsh_trace", "docs/TRACE.md", "a trace of strace(1) beside the definitions of System V IPC", words, "strace(1), ipcsh(1), ipcsh(5), sysvipc-rules(7)")


def explain():
    words = ["ipcsh_explain [SCRIPT]", "ipcsh_explain --svg FILE [SCRIPT]", "ipcsh_explain --who KIND ID [SCRIPT]", "ipcsh_explain --help", "ipcsh_explain --version"]
    return tool("ipcsh_explain", "docs/EXPLAIN.md", "what the rows of a script for ipcsh(1) mean", words, "ipcsh(1), ipcsh(5), sysvipc-rules(7), ipcwho(1)")


def journal():
    words = ["ipcsh_journal [FILE]", "ipcsh_journal --replay [FILE]", "ipcsh_journal --help", "ipcsh_journal --version"]
    return tool("ipcsh_journal", "docs/JOURNAL.md", "the journal of a script as text, and its replay", words, "ipcsh(1), ipcsh(5), sysvipc-rules(7)")


def fmt():
    words = ["ipcsh_fmt [--check] [FILE..]", "ipcsh_fmt --help", "ipcsh_fmt --version"]
    return tool("ipcsh_fmt", "docs/FMT.md", "make a script for ipcsh(1) of one with names, quotes and units", words, "ipcsh(1), ipcsh(5), ipcsh_explain(1), passwd(5), group(5)")


def library():
    words = ["#include <ipcsh.h>", "#include <ipcsh_sysv.h>", "", "cc FILE.c $(pkg-config --cflags --libs ipcsh)"]
    about = "System V IPC served within a process, for programs in C"
    return tool("ipcsh", "docs/C.md", about, words, "ipcsh(1), sysvipc-rules(7), pkg-config(1), errno(3), msgop(2), semop(2), semctl(2), shmop(2)", 3)


PAGES = {"ipcsh.1": command, "ipcsh.3": library, "ipcsh.5": language, "sysvipc-rules.7": rules, "ipcwho.1": who, "ipcrun.1": run, "ipcsh_trace.1": trace, "ipcsh_explain.1": explain, "ipcsh_journal.1": journal, "ipcsh_fmt.1": fmt}


def main():
    os.makedirs(sys.argv[1], exist_ok=True)
    for name, made in PAGES.items():
        with open(os.path.join(sys.argv[1], name), "w", encoding="utf-8") as it:
            it.write(made())


main()
