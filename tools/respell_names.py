#!/usr/bin/env python3
"""Spells the names of this repository's definitions and lemmas as today's Rattle spells names: words in snake case.

usage: respell_names.py [FOLDER]     the top of the repository; run once, after the kit's port.py

    sectorSize, currentHeader, MiB, same-refusal (a record's field)  ->  log_sector_size, current_header, mib, same_refusal
    eqb, leb, ltb in specs/ and in clauses                           ->  nat_eq, nat_le, nat_lt, the same functions under their names of today

It goes over the .antt, .rt and .edit files of crates/ and over the pages. Functions of src/, fields of structs, theorems and types keep
their names. A new name that is a field's or a parameter's would be hidden by it in a clause: such names are in OTHER.
It stops, and writes nothing, where two names would fall together.
"""

import os
import re
import sys

# The plain spelling is a field or a parameter of the source, or another lemma's name.
OTHER = {
    "diskSize": "disk_size_of",
    "hasParent": "has_parent_of",
    "isData": "is_data_descriptor",
    "logGuid": "log_guid_of",
    "logLength": "log_length_of",
    "logOffset": "log_offset_of",
    "logicalSectorSize": "logical_sector_size_of",
    "physicalSectorSize": "physical_sector_size_of",
    "regionLength": "region_length_of",
    "sectorSize": "log_sector_size",
    "sequenceNumber": "sequence_number_of",
    "rowIs": "is_row_of",
    "inImage": "in_image_at",
    "firstFits": "first_fits_in",
    "settledOn": "settled_on_all",
    "MiB": "mib",
}
COUNTS = {"eqb": "nat_eq", "leb": "nat_le", "ltb": "nat_lt"}
WORD = re.compile(r"[A-Za-zℕ_][A-Za-z0-9ℕ_'\-]*[A-Za-z0-9ℕ_'?]|[A-Za-zℕ_]")
TEXT = r'"(?:[^"\\\n]|\\.)*"'
HEX = re.compile(r"x[0-9A-F]+$")


def snake(word):
    if word in OTHER:
        return OTHER[word]
    if HEX.match(word) or not re.match(r"[a-z]", word):
        return word
    parts = []
    for part in word.split("-"):
        part = part.replace("MiB", "Mib")
        if re.match(r"[a-z]", part) or part == "Mib":
            part = re.sub(r"(?:^|(?<=[a-z0-9]))([A-Z])", lambda m: ("_" if m.start() else "") + m.group(1).lower(), part)
        parts.append(part)
    return "-".join(parts)


def files(root):
    for folder, dirs, names in os.walk(root):
        dirs[:] = sorted(d for d in dirs if d not in ("out", "target", ".git", "host", "tools"))
        for name in sorted(names):
            path = os.path.join(folder, name)
            inside = os.sep + "crates" + os.sep in path
            if name.endswith((".antt", ".rt", ".edit")) if inside else name.endswith(".md") and not name.startswith("PORT"):
                yield path


def without_remarks(path, text):
    return re.sub(r"--[^\n]*" if path.endswith(".antt") else r"//[^\n]*", "", text)


def renaming(texts):
    """From each word that is spelled otherwise to its new spelling; fields of records in proofs/ and specs/ too."""
    words, fields = set(), set()
    for path, text in texts.items():
        if not path.endswith((".antt", ".rt")):
            continue
        plain = without_remarks(path, text)
        words |= set(WORD.findall(plain))
        if path.endswith(".antt"):
            for block in re.findall(r"(?m)^(?:pub )?record [^\n]* where\n((?:(?:  [^\n]*|)\n)+)", plain):
                fields |= {m for m in re.findall(r"(?m)^  (?:pub )?([a-z][\w'\-]*) *:", block) if "-" in m}
    turned = {w: snake(w) for w in words if snake(w) != w}
    for field in fields:
        turned[field] = snake(field).replace("-", "_")
    back, there = {}, []
    for old, new in sorted(turned.items()):
        back.setdefault(new, []).append(old)
    for new, olds in sorted(back.items()):
        if len(olds) > 1:
            sys.exit(f"these fall together as {new}: {olds}")
        if new in words and not is_function(new, texts):
            there.append(f"{olds[0]} would be {new}, which is there")
    if there:
        sys.exit("\n".join(there))
    return turned


def is_function(name, texts):
    """It stands in the repository only as a function of the source (whose name a clause cannot mean), or in a path to its proof."""
    pattern = re.compile(r"(?<![\w.'\-])" + re.escape(name) + r"(?![\w'\-])")
    for path, text in texts.items():
        plain = without_remarks(path, text)
        if path.endswith(".antt"):
            plain = re.sub(r"(?m)^use .*$", "", plain)
            if pattern.search(plain):
                return False
        elif path.endswith(".rt") and re.search(r"\b" + re.escape(name) + r"\s*:(?!:)", plain):
            return False
    return True


def respell(path, text, turned, there):
    """Remarks and pages say 1 MiB as ever, and text in quotes stays."""
    counts = path.endswith((".rt", ".edit")) or os.sep + "specs" + os.sep in path

    def in_code(m):
        word = m.group(0)
        return turned.get(word) or (COUNTS.get(word) if counts else None) or word

    def in_words(m):
        word = m.group(0)
        return word if word == "MiB" else turned.get(word, word)

    if path.endswith((".md", ".edit")):
        # names that the kit's script has turned in the sources alone
        text = re.sub(r"(?<![\w'\-])[a-z][a-z0-9]*(?:[A-Z][a-z0-9]*)+(?![\w'\-])", lambda m: snake(m.group(0)) if snake(m.group(0)) in there and m.group(0) not in turned else m.group(0), text)
    if path.endswith(".md"):
        return WORD.sub(in_words, text)
    aside = {".rt": r"//[^\n]*|" + TEXT, ".antt": r"--[^\n]*", ".edit": r"(?m)^#[^\n]*"}[os.path.splitext(path)[1]]
    pieces, at = [], 0
    for m in re.finditer(aside, text):
        kept = m.group(0) if m.group(0).startswith('"') else WORD.sub(in_words, m.group(0))
        pieces += [WORD.sub(in_code, text[at : m.start()]), kept]
        at = m.end()
    return "".join(pieces) + WORD.sub(in_code, text[at:])


def main(argv):
    root = os.path.abspath(argv[0] if argv else ".")
    texts = {}
    for path in files(root):
        with open(path, encoding="utf-8") as f:
            texts[path] = f.read()
    turned = renaming(texts)
    there = set()
    for path, text in texts.items():
        if path.endswith(".antt"):
            there |= set(WORD.findall(without_remarks(path, text)))
    for path, text in texts.items():
        new = respell(path, text, turned, there)
        if new != text:
            with open(path, "w", encoding="utf-8") as f:
                f.write(new)
    for old, new in sorted(turned.items()):
        print(old, new)


if __name__ == "__main__":
    main(sys.argv[1:])
