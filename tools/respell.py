#!/usr/bin/env python3
"""Brings the names of this repository's definitions and lemmas to today's spelling.

usage: respell.py [--list] [FOLDER]

Names of functions, lemmas, fields and constructors of antt are in snake case: keyExpansion is key_expansion, and laid-bad is laid_bad. A name
that begins with a capital keeps it, and the dash behind it. Functions of src/, exported names, strings, inputs and outputs stay as they are:
only words are turned that specs/ or proofs/ declare, in .antt files, in clauses and imports of .rt files (and there what an import calls them), in must-fail edits, and between
backticks in pages. Where two names would fall together, or one with a name of the library, the later one, a lemma, gets the ending _lem.
--list prints old and new, and writes nothing.
"""
import glob
import os
import re
import sys

SPACED = r"[^\s(){}.;,@\"«»\[\]\\`]+"
WORD = re.compile(SPACED)
HEAD = re.compile(r"^(?:abbrev |unfoldable |opaque |ruleset )?(?:pub )?(" + SPACED + r")\s+[:({]")
INNER = re.compile(r"^ +(?:abbrev |unfoldable )?(?:pub )?(" + SPACED + r"(?: " + SPACED + r")*) :(?: |$)")
SKIPPED = {"use", "mod", "module", "unfolding", "record", "data", "pub", "infixl", "infixr", "infix", "abbrev", "unfoldable", "where", "open", "private", "let", "in"}
USE = re.compile(r"\buse ((?:[^\s{}]+\.)+)\{([^}]*)\}", re.S)


def read(path):
    with open(path, encoding="utf-8", newline="") as it:
        return it.read()


def declared(text, proof):
    """Names that the file declares: definitions, lemmas, fields and constructors, in order."""
    out = []
    for line in text.split("\n"):
        if re.match(r" *(?:abbrev )?(?:pub )?(?:record|data|use|let|in|module|where)(?=\s|$)", line):
            continue
        m = INNER.match(line) if line[:1].isspace() else HEAD.match(line)
        if m and not (proof and (" tie." in line or "statement M" in line)):
            out += [it for it in m.group(1).split(" ") if it not in SKIPPED]
    return out


def snake(name):
    if name[0].isupper():
        head, dash, rest = name.partition("-")
        return head + dash + snake(rest) if rest else name
    name = name.replace("getD", "get_or").replace("-", "_")
    return re.sub(r"(?<=[a-z0-9_'])([A-Z])(?=[a-z0-9]|$|')", lambda m: "_" + m.group(1).lower(), name).replace("__", "_")


def table(files):
    own, foreign = {}, set()
    for path, text in files.items():
        if path.endswith(".antt"):
            for name in declared(text, os.path.basename(path) == "Proof.antt"):
                own.setdefault(name, set()).add(path)
        for where, names in USE.findall(text):
            mine = re.match(r"Rattle\.(\w+)\.", where)
            if not (mine and os.path.isdir(os.path.join(ROOT, "crates", mine.group(1)))):
                for it in names.split(","):
                    it = it.strip().split(" as ")
                    foreign.update(x.strip("«» ") for x in it)
    turned = {n: snake(n) for n in own if n not in foreign and snake(n) != n and re.match(r"^[\w'·-]+$", n) and not n.startswith("-")}
    # a definition has its name, and a lemma that has it already gives it up
    for name in [n for n in turned if "-" not in n]:
        to = turned[name]
        if to in own and to not in turned and to not in foreign and all("/proofs/" in p for p in own[to]):
            turned[to] = to + "_lem"
    taken = (set(own) - set(turned)) | foreign
    out = {}
    # camel case before dashes: the definitions, and then the lemmas
    for name in sorted(turned, key=lambda n: ("-" in n or turned[n].endswith("_lem"), n)):
        to = turned[name]
        while to in taken:
            to += "_lem"
        taken.add(to)
        out[name] = to
    return out


def turn(text, names):
    def one(m):
        to = names.get(m.group(0), m.group(0))
        # behind a dot stands a field, or a step of a proof that has the name of the source
        return m.group(0) if to.endswith("_lem") and text[m.start() - 1 : m.start()] == "." else to

    return WORD.sub(one, text)


def turn_antt(text, names):
    out = []
    for part in re.split(r"(--[^\n]*|\"(?:[^\"\\]|\\.)*\")", text):
        if part.startswith("--"):
            part = in_words(part, names)
        elif not part.startswith('"'):
            part = turn(part, names)
        out.append(part)
    return "".join(out)


def in_words(text, names):
    """In prose: names in camel case anywhere, and names with dashes between backticks."""
    text = re.sub(r"`[^`\n]*`", lambda m: turn(m.group(0), names), text)
    camel = {k: v for k, v in names.items() if "-" not in k}
    return WORD.sub(lambda m: camel.get(m.group(0), m.group(0)), text)


def turn_rt(text, names):
    out = []
    # a word in snake case is one of the source's own
    names = {k: v for k, v in names.items() if "-" in k or k != k.lower()}
    for part in re.split(r"(?s)(//[^\n]*|b?\"(?:[^\"\\]|\\.)*\"|b?'(?:[^'\\\n]|\\.)')", text):
        if part.startswith("//"):
            part = in_words(part, names)
        elif not re.match(r"b?[\"']", part):
            part = turn(part, names)
        out.append(part)
    return "".join(out)


def turn_edit(text, names):
    out, kind = [], ""
    for line in text.split("\n"):
        if line.startswith("file:"):
            kind = line.rsplit(".", 1)[-1].strip()
        elif line.startswith(("old:", "new:")):
            line = (turn_rt if kind == "rt" else turn_antt)(line, names)
        else:
            line = in_words(line, names)
        out.append(line)
    return "\n".join(out)


def main(argv):
    global ROOT
    only = "--list" in argv
    argv = [a for a in argv if a != "--list"]
    ROOT = argv[0] if argv else "."
    at = lambda *p: [f for f in glob.glob(os.path.join(ROOT, *p), recursive=True) if "/out/" not in f]
    files = {f: read(f) for f in sorted(at("crates/*/specs/**/*.antt") + at("crates/*/proofs/**/*.antt") + at("crates/*/src/**/*.rt"))}
    names = table(files)
    if only:
        print("\n".join(f"{a}\t{b}" for a, b in sorted(names.items())))
        return 0
    pages = {f: read(f) for f in at("crates/*/must-fail/*.edit") + at("*.md") + at("docs/**/*.md") + at("crates.txt")}
    files.update(pages)
    older = with_turned(names, files)
    for path, text in sorted(files.items()):
        by = turn_antt if path.endswith(".antt") else turn_rt if path.endswith(".rt") else turn_edit if path.endswith(".edit") else in_backticks
        new = by(text, older if path in pages else {**names, **aliases(text)})
        if new != text:
            with open(path, "w", encoding="utf-8", newline="") as it:
                it.write(new)
            print(path)
    return 0


def aliases(text):
    """The names behind `as` in the file's imports, where the new spelling is not there yet."""
    words = set(WORD.findall(text))
    return {a: snake(a) for a in re.findall(r" as ([a-z][a-z0-9]*[A-Z]\w*)", text) if snake(a) not in words}


def with_turned(names, files):
    """The names, and the older spelling of those that are declared in the new one already: pages and edits were not turned with them."""
    own = {n for p, t in files.items() if p.endswith(".antt") for n in declared(t, False)}
    out = {}
    for text in files.values():
        for word in WORD.findall(text):
            if word not in names and re.match(r"[a-z]\w*[A-Z-]", word) and snake(word) in own:
                out[word] = snake(word)
    return {**out, **names}


def in_backticks(text, names):
    return re.sub(r"`[^`\n]*`", lambda m: turn(m.group(0), names), text)


if __name__ == "__main__":
    raise SystemExit(main(sys.argv[1:]))
