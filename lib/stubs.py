"""Takes from a crate what its functions do, and leaves what they ensure: whoever calls one is judged by itself, and sooner."""

import re
import shutil

# What may stand between a function's name and its body, with braces of its own.
CLAUSE = re.compile(r"((requires|ensures)\*?( \w+)?|ghost \w+:)\s*$")
# Text whose braces count for nothing.
PLAIN = re.compile(r"//[^\n]*|\"(\\.|[^\"\\])*\"|'(\\.|[^'\\])'")
# Where a block begins, or an item ends that has none.
BRACE = re.compile(r"{|;(?![^\n{};]*\])")
TYPE = re.compile(r"^ *(?:pub(?:\(\w+\))? )?(?:struct|enum|trait) (\w+)", re.M)
# What begins an impl or a trait: the trait that is implemented, with its arguments, and the type, or the trait itself.
OWNER = re.compile(r"^(?:pub(?:\(\w+\))? )?(?:impl(?:<[^{]*?>)? (?:(\w+(?:<[^{]*>)?) for )?|trait )(\w+|\(\))[^{]*", re.M)


def end_of(text, at):
    """Where the block ends that begins at a place."""
    depth = 0
    for found in re.finditer("[{}]", text[at:]):
        depth += 1 if found.group() == "{" else -1
        if depth == 0:
            return at + found.end()
    return len(text)


def functions(text):
    """The functions of a file that have a body: the type and the trait of the impl of each, its name, and where its body begins and ends."""
    text = PLAIN.sub(lambda it: " " * len(it.group()), text)
    # The prover calls the impl of From<A> for B `BFromA`.
    owners = [(it.end(), end_of(text, it.end()), it[2], re.sub(r"\W", "", it[1] or "")) for it in OWNER.finditer(text)]
    for found in re.finditer(r"\bfn (\w+)", text):
        at = found.end()
        kind, role = next((it[2:] for it in owners if it[0] < at < it[1]), ("", ""))
        while mark := BRACE.search(text, at):
            end = end_of(text, mark.start())
            if mark.group() == ";":
                break
            if not CLAUSE.search(text, at, mark.start()):
                yield kind, role, found[1], mark.start(), end
                break
            at = end


def keep_only(folder, names):
    """Takes their bodies and proofs from all functions of a crate but those of these names. Those of types of other crates keep theirs."""
    texts = {it: it.read_text(encoding="utf-8") for it in (folder / "src").rglob("*.rt")}
    modules = {it: it.relative_to(folder / "src").with_suffix("") for it in texts}
    # A method's proof stands by the module of its type, but that of a trait's by the impl's.
    homes = {kind: modules[file] for file, text in texts.items() for kind in TYPE.findall(text)}
    for file, text in texts.items():
        homes[""] = "" if file.name == "lib.rt" else modules[file]
        others = [it for it in functions(text) if it[2] not in names and it[0] in homes]
        for kind, role, name, start, end in reversed(others):
            text = text[:start] + "{ loop {} }" + text[end:]
            proofs = folder / "proofs" / (modules[file] if role else homes[kind]) / f"{kind}{role}" / name
            shutil.rmtree(proofs, ignore_errors=True)
            proofs.mkdir(parents=True)
            # Without this file the prover would not look at who calls the function.
            (proofs / "Proof.antt").touch()
        file.write_text(text, encoding="utf-8")
