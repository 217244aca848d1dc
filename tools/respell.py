#!/usr/bin/env python3
"""Respells the repository's own definitions and lemmas: words in snake case, types in camel case.

usage: python3 tools/respell.py        at the top of the repository, once, on what the toolchain's own port script made

Names of src/ (functions, fields, constants, variants) are in that spelling already and stay. A name that would fall together with another one
is given its own below: a lemma named as the definition that it speaks of gets `_lem`, and four definitions get another word.
"""

import os
import re

# a definition whose name in snake case is another's: a label of a record, a constructor or a lemma
OTHER = {"oneWay": "is_one_way", "oneWriter": "has_one_writer", "byValue": "left_by_value", "wideType": "wide_type_code"}

# lemmas (of these crates' proofs/) whose names are those of definitions in snake case
LEMMAS = {
    "any_left": "rerun", "by_zero": "values", "core_at": "taskset steps", "count_at": "states", "goes_to": "bounds", "in_window": "holding",
    "lent_fits": "machine", "pair_ok": "taskset", "place_ok": "records", "read_byte": "memory values rerun", "reads_on": "steps",
    "ring_of": "protocol cycles", "step_in": "order runner core_runs steps order_runs", "steps_on": "order order_runs", "stopped_by": "runner core_runs",
    "takes_write": "protocol", "too_long": "copies states fitness", "typed_at": "processor", "write_byte": "rerun", "written_back": "rikzord",
}

# a type that had a small letter
TYPES = {"finite": ("Finite", "crates/conversions/proofs/Whole.antt")}

WORD = re.compile(r"(?<![A-Za-z0-9_'])[a-z][a-z0-9]*(?:[A-Z][A-Za-z0-9]*)+'*(?![A-Za-z0-9_'])")


def snake(word):
    if word in OTHER:
        return OTHER[word]
    s = re.sub(r"([a-z0-9])([A-Z])", r"\1_\2", word)
    s = re.sub(r"([A-Z])([A-Z][a-z])", r"\1_\2", s)
    return s.lower()


def whole(word):
    return re.compile(r"(?<![A-Za-z0-9_.:'`-])" + re.escape(word) + r"(?![A-Za-z0-9_.'`-])")


def respelled(text):
    return WORD.sub(lambda m: snake(m.group()), text)


def antt(path, text):
    crate = path.split(os.sep)[1]
    if os.sep + "proofs" + os.sep in path:
        for word, crates in LEMMAS.items():
            if crate in crates.split():
                text = whole(word).sub(word + "_lem", text)
    for word, (other, where) in TYPES.items():
        if path == where:
            text = whole(word).sub(other, text)
    return respelled(text)


def source(text):
    """Only what contracts and comments say: a line of `ghost use`, a clause to its closing brace, a comment."""
    lines, inside = [], False
    for line in text.split("\n"):
        head = re.match(r"\s*(ghost|requires|ensures)\b", line)
        if head:
            inside = True
        if inside:
            line = respelled(line)
            if re.search(r"[;}]\s*$|},\s*$", line) and not re.match(r"\s*ghost use .*[^;]$", line):
                inside = False
        elif "//" in line:
            code, mark, comment = line.partition("//")
            line = code + mark + respelled(comment)
        lines.append(line)
    return "\n".join(lines)


def main():
    for folder, dirs, files in os.walk("crates"):
        dirs[:] = sorted(d for d in dirs if d != "out")
        for name in sorted(files):
            path = os.path.join(folder, name)
            if not name.endswith((".antt", ".rt")):
                continue
            with open(path, encoding="utf-8") as f:
                text = f.read()
            new = antt(path, text) if name.endswith(".antt") else source(text)
            if new != text:
                with open(path, "w", encoding="utf-8") as f:
                    f.write(new)


main()
