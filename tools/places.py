#!/usr/bin/env python3
"""Counts the places of src/ that the points 1 to 7 of docs/DESIGN-PASS.md look for: tools/places.py [COMMIT]

Reads crates/*/src/*.rt of that commit, or of the work tree, by text alone. What is printed are candidates: a reader says which of them are
places. A line is a candidate, `crate/file name`; before each point stands how many there are, part by part.
"""
import collections
import itertools
import pathlib
import re
import subprocess
import sys

ROOT = pathlib.Path(__file__).resolve().parent.parent
NAME = r"[A-Za-z_]\w*"

# Variants that say that there is nothing, that something is wrong, or that a test is passed.
ABSENT = set("""Missing Bad Nothing Nowhere Unknown Departs Malformed Passes Fails Passed Failed Wrong Refused Denied Unopened Misshapen
Unlisted Other Absent WrongBuffer Whole Done""".split())
COUNTS = r"(?:n|count|size|length|used|\w*_count)"
NUMBER = r"(?:u8|u16|u32|u64|u128|usize)"


def git(*words):
    return subprocess.run(("git",) + words, cwd=ROOT, capture_output=True, text=True, check=True).stdout


def sources(commit):
    """The text of each source, by crate and file."""
    if commit:
        paths = git("ls-tree", "-r", "--name-only", commit, "crates").splitlines()
    else:
        paths = [path.relative_to(ROOT).as_posix() for path in ROOT.glob("crates/*/src/**/*.rt")]
    kept = sorted(path for path in paths if re.fullmatch(r"crates/\w+/src/.*\.rt", path))
    texts = [git("show", f"{commit}:{path}") if commit else (ROOT / path).read_text() for path in kept]
    return {re.fullmatch(r"crates/(\w+)/src/(.*)", path).groups(): code(text) for path, text in zip(kept, texts)}


def code(text):
    """Without comments; what a string or a character holds is blanked, so that no brace in it counts."""

    def blanked(match):
        return "" if match[0].startswith("//") else '""' if match[0].endswith('"') else match[1] + "'_'"

    return re.sub(r"""//[^\n]*|b?"(?:\\.|[^"\\])*"|(b?)'(?:\\[^']+|\\'|[^'\\\n])'""", blanked, text, flags=re.S)


def closed(text, start, pair="{}"):
    """What stands between the bracket at `start` and the one that closes it."""
    depth = 0
    for at in range(start, len(text)):
        depth += (text[at] == pair[0]) - (text[at] == pair[1])
        if depth == 0:
            return text[start + 1 : at]
    return text[start + 1 :]


def parts(text, mark=","):
    """Split at a mark that stands in no bracket."""
    depth, found, last = 0, [], ""
    for sign in text:
        depth += (sign in "([{<") - (sign in ")]}>")
        if sign == mark and depth <= 0:
            found.append(last)
            last = ""
        else:
            last += sign
    return [" ".join(part.split()) for part in found + [last] if part.strip()]


def items(text, word):
    """Each `enum` or `struct` with its variants or fields."""
    for match in re.finditer(rf"\b{word} ({NAME})[^;{{(]*\{{", text):
        yield match[1], parts(re.sub(r"#\[[^\]]*\]|\bpub\b", "", closed(text, match.end() - 1)))


def closed_angles(text, start):
    """Where the `<` at `start` is closed; the `>` of an arrow closes nothing."""
    depth = 0
    for match in re.compile(r"->|[<>]").finditer(text, start):
        depth += {"<": 1, ">": -1}.get(match[0], 0)
        if depth == 0:
            return match.end()
    return start


class Function:
    def __init__(self, place, name, text, at):
        self.place, self.name = place, name
        # bounds like F: Fn(..) -> .. have parentheses of their own
        opened = text.index("(", closed_angles(text, at) if text[at] == "<" else at)
        held = closed(text, opened, "()")
        self.params = [tuple(part.removeprefix("mut ").split(": ", 1)) for part in parts(held.replace("->", "")) if ": " in part]
        head = re.compile(r"\s*(?:->\s*([^\n{]*?))?\s*(?=\n|\{|;\n)").match(text, opened + len(held) + 2)
        self.result, self.facts, self.body, at = head[1] or "", [], "", head.end()
        if bounds := re.compile(r"\s*where\b[^{;]*?(?=\b(?:requires|ensures|decreases|measure)\b|\{)").match(text, at):
            at = bounds.end()
        while clause := re.compile(r"\s*(?:requires|ensures|decreases|measure)\*?(?: \w+)?\s*\{").match(text, at):
            inner = closed(text, clause.end() - 1)
            self.facts += [re.sub(r"^\((.*)\)$", r"\1", fact) for fact in parts(inner, "×")]
            at = clause.end() + len(inner) + 1
        if begins := re.compile(r"\s*\{").match(text, at):
            self.body = closed(text, begins.end() - 1)

    def told(self):
        return f"{self.place} {self.name}"


def functions(found):
    for (crate, file), text in found.items():
        for match in re.finditer(rf"\bfn ({NAME})", text):
            yield crate, Function(f"{crate}/{file}", match[1], text, match.end())


# 1. Enums of the shape of Option or Result, a flag beside a value, numbers for kinds and refusals.


def shape(variants):
    names = [re.match(NAME, variant)[0] for variant in variants]
    bare = [name == variant for name, variant in zip(names, variants)]
    return (len(variants) == 2 and sum(bare) == 1) or bool(ABSENT.intersection(names))


def arms(body):
    """The arms of each `match`: pattern and outcome."""
    for match in re.finditer(r"\bmatch [^{;]*\{", body):
        inner = closed(body, match.end() - 1)
        yield [tuple(part.split(" => ", 1)) for part in parts(re.sub(r"\}\n", "},\n", inner)) if " => " in part]


def point_1(found, all_functions):
    enums, flags, codes = [], [], []
    for (crate, file), text in found.items():
        for name, variants in items(text, "enum"):
            mark = "shaped " if shape(variants) else "other  "
            enums.append(f"{mark} {crate}/{file} {name} {{{', '.join(variants)}}}")
        for name, fields in items(text, "struct"):
            told = f"{crate}/{file} {name} {{{', '.join(fields)}}}"
            if len(fields) > 1 and any(field.endswith(": bool") for field in fields):
                flags.append(told)
            if any(re.fullmatch(rf"(?:refusal|code|column|kind): {NUMBER}", field) for field in fields):
                codes.append(told)
    for _, it in all_functions:
        numbered = any(sum(bool(re.fullmatch(r"\d+", out)) for _, out in some) > 1 for some in arms(it.body))
        taken = any(name in ("refusal", "code", "kind", "column") and re.fullmatch(NUMBER, kind) for name, kind in it.params)
        if (re.fullmatch(NUMBER, it.result) and numbered) or taken:
            codes.append(it.told())
    shaped = [line for line in enums if line.startswith("shaped")]
    return [("enums of the shape", shaped), ("other enums", [line for line in enums if line not in shaped]), ("flags", flags), ("codes", codes)]


# 2. Functions that are the same but for types, sizes and numbers, and names that end in a size.


def form(body):
    return " ".join(re.sub(rf"\b[A-Z]\w*(?:::[A-Z]\w*)*|\b{NUMBER}\b|\b0x\w+|\b\d\w*|\"\"", "_", body).split())


def point_2(found, all_functions):
    groups = collections.defaultdict(list)
    for crate, it in all_functions:
        if len(re.findall(r"\w+", it.body)) > 5:
            groups[crate, form(it.body)].append(it.told())
    # the functions of one trait, each in the impl of another type, have one name
    same = [" = ".join(told) for told in groups.values() if len({one.split()[1] for one in told}) > 1]
    sizes = r"\w*(?:_\d+|[a-z]\d{1,2}|_(?:one|two|three|four|six|eight|twelve|sixteen))|(?:three|six|eight|twelve|sixteen|u16|u32)_\w+"
    named = [it.told() for _, it in all_functions if re.fullmatch(sizes, it.name) and not it.name.endswith("p5")]
    return [("groups of the same form", same), ("names with a size", named)]


# 3. Loops that count by hand.


def point_3(found, all_functions):
    words = r"\bwhile [^{]*\{|\bloop \{|\bfor \w+ in [^{]*\.\.[^{]*\{"
    loops = [(it, match[0]) for _, it in all_functions for match in re.finditer(words, it.body)]
    told = [f"{it.told()}: {' '.join(head.split())[:-2]}" for it, head in loops]
    ranged = [line for line in told if re.search(r": for \w+ in [^\[]*\.\.", line)]
    return [("while and loop", [line for line in told if ": for " not in line]), ("for over a range", ranged)]


# 4. Equality, order, conversion and printing by hand.


def point_4(found, all_functions):
    name = r"same\w*|is_same\w*|equal\w*|is_equal\w*|is_between|wide|past|xor\w*|print|print_\w+|put_name\w*|put_decimal|put_hex|complain\w*"
    by_name = [it.told() for _, it in all_functions if re.fullmatch(name, it.name)]
    by_match = []
    for _, it in all_functions:
        literal = [out for some in arms(it.body) for pattern, out in some if re.match(r"\d|0x|b'", pattern) or re.fullmatch(r"\d+", out)]
        if len(literal) > 1 and re.search(r"(?:_of|_name|_found|_row|number|from)$", it.name) and it.told() not in by_name:
            by_match.append(it.told())
    return [("by name", by_name), ("by a match of literals", by_match)]


# 5. Facts of three functions, and parameters that stand together in three.


def point_5(found, all_functions):
    facts, by_crate = collections.defaultdict(set), collections.defaultdict(list)
    for crate, it in all_functions:
        by_crate[crate].append((it.told(), frozenset(it.params)))
        for fact in it.facts:
            if not re.search(r"\bresult\b|\bnew\b", fact):
                facts[crate, fact].add(it.told())
    often = [f"{crate} {fact}: {len(told)} functions" for (crate, fact), told in facts.items() if len(told) > 2]
    together = []
    for crate, all_params in by_crate.items():
        groups = {one & other for (_, one), (_, other) in itertools.combinations(all_params, 2)}
        held = {group: [told for told, params in all_params if group <= params] for group in groups if len(group) > 2}
        held = {group: told for group, told in held.items() if len(told) > 2}
        for group, told in held.items():
            if not any(group < other and told == held[other] for other in held):
                together.append(f"{crate} ({', '.join(sorted(': '.join(one) for one in group))}): {len(told)} functions")
    return [("facts", often), ("parameters", together)]


# 6. An array with a count beside it.


def point_6(found, all_functions):
    def counted(pairs):
        is_array = any(re.match(r"(?:&(?:mut )?)?\[[^;]+;", kind) for _, kind in pairs)
        return is_array and any(re.fullmatch(COUNTS, name) and re.fullmatch(NUMBER, kind) for name, kind in pairs)

    structs = []
    for (crate, file), text in found.items():
        for name, fields in items(text, "struct"):
            if counted([tuple(field.split(": ", 1)) for field in fields if ": " in field]):
                structs.append(f"{crate}/{file} {name} {{{', '.join(fields)}}}")
    return [("structs", structs), ("parameters", [it.told() for _, it in all_functions if counted(it.params)])]


# 7. A switch on a letter or number that only picks what to run, and tables of functions.


def point_7(found, all_functions):
    switches = []
    for _, it in all_functions:
        for some in arms(it.body):
            calls = [re.match(r"\d|0x|b'", pattern) and re.fullmatch(r"[\w:.]+\(.*\)\??", out, re.S) for pattern, out in some]
            if sum(map(bool, calls)) > 2:
                switches.append(it.told())
    pointers = [f"{crate}/{file}: {match[0]}" for (crate, file), text in found.items() for match in re.finditer(r"\bfn\([^)]*\)|\bdyn \w+", text)]
    return [("switches", switches), ("function pointers and dyn", pointers)]


def main():
    if len(sys.argv) > 2:
        sys.exit("usage: tools/places.py [COMMIT]")
    found = sources(sys.argv[1] if len(sys.argv) > 1 else "")
    all_functions = list(functions(found))
    print(f"{len(found)} files, {len(all_functions)} functions")
    for number, point in enumerate((point_1, point_2, point_3, point_4, point_5, point_6, point_7), 1):
        told = point(found, all_functions)
        print(f"\n{number}. " + ", ".join(f"{name} {len(lines)}" for name, lines in told))
        for name, lines in told:
            print("".join(f"   {name}: {line}\n" for line in sorted(lines)), end="")


main()
