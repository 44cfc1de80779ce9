#!/usr/bin/env python3
"""Counts places of older forms in crates/*/src: python3 tools/count_forms.py COMMIT [-v]

One line a kind of place, by the points of docs/DESIGN-PASS.md; -v lists the places. It reads the files as they stand in COMMIT.
"""
import re
import subprocess
import sys
from collections import defaultdict


def git(*arguments):
    return subprocess.run(["git", *arguments], check=True, capture_output=True, text=True).stdout


def sources(commit):
    for path in git("ls-tree", "-r", "--name-only", commit, "crates").split("\n"):
        if "/src/" in path and path.endswith(".rt"):
            yield path, git("show", f"{commit}:{path}")


def code(text):
    """The text with comments and string literals blanked, so that only code is counted."""
    text = re.sub(r'b?"(\\.|[^"\\])*"', '""', text)
    return re.sub(r"//.*", "", text)


# Kinds that a line's text tells.
LINES = [
    ("1 enum variant that says 'no value' or 'refused'", r"^ +(Refused\((u64|Refusal)\)|Nothing|Empty|Broken|End|Unknown|Missing|Neither),$"),
    ("1 flag with a value beside it (refusal: u64)", r"^ +pub refusal: u64,$"),
    ("1 refusal by a number", r"(?<!fn )\b[Rr]efused\([0-9]+\)|refusal: [0-9]+|=> 2[12],$|^    21$"),
    ("1 kind by a number", r"kind: (u64|[0-9])|slots\[[0-9]+\] == [0-9]|kind == [0-9]"),
    ("3 loop: while or loop", r"^\s*(while|loop)\b"),
    ("3 of these, an index or a count by hand", r"^\s*while (\w+ < |0 < \w+)"),
    ("4 identifier compared by its halves", r"\.low == |\.high == "),
    ("4 field copied into a local of its name", r"^\s*let (\w+) = \w+\.\1;$"),
    ("6 buffer with a length beside it, C's form", r"\bbuffer: &.*\blength: u64"),
    ("6 buffer with a length beside it, ours", r"\bused: usize"),
    ("7 match on a state that says which step to run", r"\bmatch (stage|phase|turn|m|step) \{"),
]


def functions(text):
    """Each function's name and text, by its braces."""
    for head in re.finditer(r"^ *(?:pub )?fn (\w+)", text, re.M):
        at = text.find("\n{", head.start())
        inline = re.compile(r"\{\n").search(text, head.end())
        start = inline.start() if inline and (at < 0 or inline.start() < at) else at + 1
        depth, end = 0, start
        while end < len(text):
            depth += {"{": 1, "}": -1}.get(text[end], 0)
            end += 1
            if depth == 0:
                break
        yield head.group(1), text[head.start():start], text[start:end]


def shape(body):
    """A body without its names, numbers and types."""
    body = re.sub(r"\b(u8|u16|u32|u64|usize)\b", "T", body)
    body = re.sub(r"\b[0-9][0-9a-fx_]*\b", "N", body)
    names = {}
    return re.sub(r"\b[A-Za-z_]\w*(::\w+)*", lambda m: names.setdefault(m.group(), f"n{len(names)}"), re.sub(r"\s+", " ", body))


def clauses(head):
    for kind, text in re.findall(r"(requires|ensures)\s+(?:\w+ )?\{ (.*?) \}\s*$", head, re.M):
        if kind == "requires":
            for part in re.split(r" × ", text):
                yield part.strip().strip("()")


def main():
    commit = sys.argv[1]
    verbose = "-v" in sys.argv
    found = defaultdict(list)
    shapes, facts = defaultdict(list), defaultdict(list)
    for path, text in sources(commit):
        crate = path.split("/")[1]
        bare = code(text)
        for number, line in enumerate(bare.split("\n"), 1):
            for kind, pattern in LINES:
                if re.search(pattern, line):
                    found[kind].append(f"{path}:{number}: {line.strip()}")
        for enum in re.finditer(r"^ *(?:pub )?enum (\w+) \{\n(.*?)^\}", bare, re.M | re.S):
            found["1 enum, any"].append(f"{path}: {enum.group(1)}")
        for literal in re.finditer(r"\b([A-Z]\w+) \{\n((?: +.*,\n)+?) *\}", bare):
            fields = literal.group(2).split("\n")[:-1]
            owners = re.findall(r"^ +(\w+): (\w+)\.\1,$", literal.group(2), re.M)
            if len(owners) >= 2 and ".." not in literal.group(2) and len({o for _, o in owners}) == 1 and len(owners) * 2 >= len(fields):
                found["4 struct rebuilt field by field"].append(f"{path}: {literal.group(1)}")
        for name, head, body in functions(bare):
            if len(body) > 60:
                shapes[shape(body)].append(f"{crate}::{name}")
            for fact in clauses(head):
                facts[re.sub(r"\b(h|s|d|e|t|m|item|region|sector|tail|piece|facts|f|w|x|buffer|log|image)\b", "_", fact)].append(f"{crate}::{name}")
    for places in shapes.values():
        if len(places) > 1:
            found["2 bodies of one shape"].append(" ".join(places))
    for fact, places in facts.items():
        if len(set(places)) >= 3:
            found["5 fact asked by three or more functions"].append(f"{fact}: {len(places)}")
    for kind in sorted(found):
        print(f"{kind}: {len(found[kind])}")
        if verbose:
            for place in found[kind]:
                print(f"    {place}")


main()
