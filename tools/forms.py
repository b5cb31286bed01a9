#!/usr/bin/env python3
"""Counts the places in crates/*/src that docs/DESIGN-PASS.md speaks of, and lists them.

usage: tools/forms.py [POINT ..] [--at COMMIT]

POINT is a number from 1 to 8; with none, all are counted. A place is found by
the text alone: the list is where to look, and a reader judges what it means.
With --at the files of that commit are read in place of the working tree.
"""

import collections
import io
import re
import subprocess
import sys
import tarfile

POINTS = {
    1: "enums of the shape of Option or Result, flags, and numbers for kinds or refusals",
    2: "functions and types that have the same shape",
    3: "loops",
    4: "comparisons, conversions and printing by hand",
    5: "facts in three or more contracts, and parameters that travel together",
    6: "buffers with a place beside, parallel lists, lists searched by hand, sentinels",
    7: "tables, matches on a step and flags that pick a computation",
    8: "answers and lemmas in proofs/",
}


def sources(commit, below):
    """The repository's files whose paths match, as (path, text)."""
    if commit:
        data = subprocess.run(["git", "archive", commit], check=True, capture_output=True).stdout
        with tarfile.open(fileobj=io.BytesIO(data)) as tar:
            for member in tar:
                if member.isfile() and below.match(member.name):
                    yield member.name, tar.extractfile(member).read().decode()
    else:
        names = subprocess.run(["git", "ls-files", "-co", "--exclude-standard"], check=True, capture_output=True, text=True).stdout
        for name in sorted(names.split("\n")):
            if below.match(name):
                with open(name) as file:
                    yield name, file.read()


def blank(text):
    """The text without comments, and with strings emptied, line by line as before."""
    text = re.sub(r"//[^\n]*", "", text)
    return re.sub(r'"(?:[^"\\]|\\.)*"', lambda s: '""' + "\n" * s.group().count("\n"), text)


FUNCTION = re.compile(r"^([ ]*)(?:pub(?:\([a-z]+\))? )?(?:const )?fn (\w+)", re.M)


class Function:
    """A function: its head (with parameters), its clauses and its body."""

    def __init__(self, path, text, match):
        self.path, self.name = path, match.group(2)
        self.line = text.count("\n", 0, match.start()) + 1
        indent = match.group(1)
        body = re.compile("^" + indent + r"\{$|\{\}?$", re.M).search(text, match.start())
        stop = re.compile(r";$", re.M).search(text, match.start())
        if body is None or (stop and stop.start() < body.start() and text[match.start():stop.start()].count("{") == text[match.start():stop.start()].count("}")):
            self.head, self.body = text[match.start(): stop.start() if stop else len(text)], ""
        else:
            self.head = text[match.start(): body.start()]
            close = re.compile("^" + indent + r"\}", re.M).search(text, body.end())
            self.body = text[body.end(): close.start() if close else body.end()]
        self.requires = re.findall(r"requires (?:\w+ )?\{ (.*) \}", self.head)
        signature = re.split(r"\n\s*(?:requires|ensures)\b", self.head)[0]
        inner = signature[signature.find("(") + 1:]
        self.parameters = re.findall(r"\b(?:mut )?(\w+): (&?(?:'\w+ )?(?:mut )?[^,()]+(?:\([^()]*\))?)", inner)


def functions(files):
    for path, text in files:
        for match in FUNCTION.finditer(text):
            yield Function(path, text, match)


def shape(code):
    """The tokens of the code, with every name, number and string the same."""
    tokens = re.findall(r'""|[A-Za-z_]\w*|\d[\w]*|[^\s\w]', code)
    kept = {"if", "else", "match", "for", "in", "while", "return", "let", "mut", "fn", "Some", "None", "Ok", "Err", "true", "false", "as"}
    return " ".join(t if t in kept or not re.match(r"\w", t) else "x" for t in tokens)


def lines_that(files, pattern):
    for path, text in files:
        for number, line in enumerate(text.split("\n"), 1):
            if pattern.search(line):
                yield f"{path}:{number}: {line.strip()}"


def first(files):
    for path, text in files:
        for match in re.finditer(r"enum (\w+)(?:<[^>]*>)? \{(.*?)\n\s*\}", text, re.S):
            variants = re.findall(r"^\s*(\w+)(\(.*\))?,", match.group(2), re.M)
            bare = [v for v, value in variants if not value]
            if len(variants) in (2, 3) and bare and len(bare) < len(variants):
                yield f"{path}: enum {match.group(1)}: {', '.join(v + value for v, value in variants)}"
    yield from lines_that(files, re.compile(r"^\s*(?:pub )?\w+: bool,|[(,] ?\w+: bool\b|Result<bool>"))
    yield from lines_that(files, re.compile(r"^\s*\w+::.*=> \d+,|\b(?:stage|kind|code|layer): (?:u8|u32|u64|usize)\b|Stage\((?:usize|u32)\)|= Result<.*\(u32, usize\)"))


def second(files):
    groups = collections.defaultdict(list)
    for function in functions(files):
        key = shape(function.body)
        if len(key.split()) >= 14:
            groups[key].append(f"{function.path}:{function.line}: {function.name}")
    for path, text in files:
        for match in re.finditer(r"(struct|enum) (\w+)(?:<[^>]*>)? \{(.*?)\n\}", text, re.S):
            body = re.sub(r"ghost .*", "", match.group(3))
            key = match.group(1) + shape(body)
            if len(key.split()) >= 6:
                groups[key].append(f"{path}: {match.group(1)} {match.group(2)}")
    for group in groups.values():
        if len(group) > 1:
            yield " | ".join(group)


def third(files):
    for line in lines_that(files, re.compile(r"^\s*for .* in .*|^\s*while ")):
        over = re.search(r" in (.*)", line)
        if " while " in line or over is None:
            kind = "while"
        elif "enumerate()" in line:
            kind = "counted"
        elif ".." in over.group(1):
            kind = "range"
        else:
            kind = "items"
        yield f"{kind}: {line}"


def fourth(files):
    impl = r"^impl(?:<.*>)? (?:fmt::)?(?:PartialEq|Eq|PartialOrd|Ord|Clone|Copy|Debug|Display|From|TryFrom|FromStr)\b"
    function = r"fn (?:before|less|eq|cmp|is_first_miss|greater_of|print_\w+|letters|layer)\b"
    for kind, pattern in (("impl", impl), ("function", function), ("cast", r"\bas (?:u8|u16|u32|u64|u128|usize)\b")):
        for line in lines_that(files, re.compile(pattern)):
            yield f"{kind}: {line}"


def fifth(files):
    facts, pairs = collections.defaultdict(list), collections.defaultdict(list)
    for function in functions(files):
        if "_tests/" in function.path:
            continue
        crate = function.path.split("/")[1]
        for fact in function.requires:
            facts[crate, fact].append(function.name)
        names = [f"{n}: {t.strip()}" for n, t in function.parameters if n != "self"]
        for i, one in enumerate(names):
            for other in names[i + 1:]:
                pairs[crate, one, other].append(function.name)
    for (crate, fact), names in sorted(facts.items()):
        if len(names) > 2:
            yield f"{crate}: {len(names)} contracts: {fact}"
    for (crate, one, other), names in sorted(pairs.items()):
        if len(names) > 3:
            yield f"{crate}: {len(names)} functions: {one}, {other}"


def sixth(files):
    for function in functions(files):
        names = [t.strip() for _, t in function.parameters]
        lists = [t for t in names if re.match(r"&(?:mut )?\[", t)]
        if any("&mut [u8]" in t for t in names) and "usize" in names:
            yield f"{function.path}:{function.line}: {function.name}: a buffer with a place beside it"
        if any(lists.count(t) > 1 for t in lists):
            yield f"{function.path}:{function.line}: {function.name}: lists of one type side by side"
    yield from lines_that(files, re.compile(r"\.contains\(&\w+\)$|const EMPTY|: \[\w+; \d+\],|&mut \[0"))


def seventh(files):
    yield from lines_that(files, re.compile(r"const \w+: \[|\bdyn\b|\bfn\(|match \*?rule|match call|match kind|if kind ==|\blater: bool"))


def eighth(commit):
    proofs = re.compile(r"crates/\w+/proofs/.*\.antt$")
    counts = collections.Counter()
    for path, text in sources(commit, proofs):
        crate = path.split("/")[1]
        if path.endswith("/Answers.antt"):
            counts[crate, "answers"] += len(re.findall(r"^pub [^\s:]+ : (?:\S+ → )?goal\.|^pub \S+ : .*goal\.", text, re.M))
        else:
            counts[crate, "lemmas"] += len(re.findall(r"^(?:pub )?[a-z][^\s:=]* :", text, re.M))
    for (crate, what), count in sorted(counts.items()):
        yield f"{crate}: {count} {what}"


def main():
    arguments = sys.argv[1:]
    commit = None
    if "--at" in arguments:
        place = arguments.index("--at")
        commit = arguments[place + 1]
        del arguments[place: place + 2]
    wanted = [int(a) for a in arguments] or sorted(POINTS)
    files = [(path, blank(text)) for path, text in sources(commit, re.compile(r"crates/\w+/src/.*\.rt$"))]
    finders = {1: first, 2: second, 3: third, 4: fourth, 5: fifth, 6: sixth, 7: seventh}
    for point in wanted:
        found = list(eighth(commit) if point == 8 else finders[point](files))
        kinds = collections.Counter(line.split(": ")[0] for line in found) if point in (3, 4) else {}
        parts = "".join(f", {kind} {count}" for kind, count in sorted(kinds.items()))
        print(f"point {point}, {POINTS[point]}: {len(found)}{parts}")
        for line in found:
            print("    " + line)


main()
