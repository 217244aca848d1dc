#!/usr/bin/env python3
"""Finds the places of src/ that are written by hand where Rattle has a form for them, point by point as docs/DESIGN-PASS.md numbers them.

    tools/forms.py              the counts
    tools/forms.py 3            the places of point 3, one a line
    tools/forms.py 3 memory     those of one crate

A place is found by its text alone; what is meant by it is read by a person, and docs/DESIGN-PASS.md says what was."""
import os
import re
import sys

TOP = os.path.join(os.path.dirname(os.path.abspath(__file__)), "..")


def sources():
    crates = os.path.join(TOP, "crates")
    for crate in sorted(os.listdir(crates)):
        folder = os.path.join(crates, crate, "src")
        if not os.path.isdir(folder):
            continue
        for name in sorted(os.listdir(folder)):
            if name.endswith(".rt"):
                with open(os.path.join(folder, name), encoding="utf-8") as f:
                    yield crate, f"crates/{crate}/src/{name}", f.read()


def blank(text):
    """The text without comments and strings, line by line as long as before."""
    text = re.sub(r'b?"(?:\\.|[^"\\])*"', lambda m: '"' + " " * (len(m.group()) - 2) + '"' if "\n" not in m.group() else m.group(), text)
    return re.sub(r"//[^\n]*", "", text)


def line_of(text, place):
    return text.count("\n", 0, place) + 1


FUNCTION = re.compile(r"^( *)(pub )?(?:const )?(?:unsafe )?(?:extern \"[^\"]*\" )?fn (\w+)", re.M)


def functions(text):
    """Name, line, signature with clauses, body."""
    found = []
    for m in FUNCTION.finditer(text):
        indent = m.group(1)
        end = re.compile(r"^" + indent + r"\}$|^" + indent + r"[^\n]*;$", re.M).search(text, m.end())
        whole = text[m.start():end.end() if end else len(text)]
        body = re.search(r"^" + indent + r"\{$", whole, re.M) or re.search(r"\{\n", whole)
        head = whole[:body.start()] if body else whole
        found.append((m.group(3), bool(m.group(2)), line_of(text, m.start()), head, whole[len(head):]))
    return found


def parameters(head):
    start = head.index("(")
    depth, at = 0, start
    for at in range(start, len(head)):
        depth += {"(": 1, "[": 1, ")": -1, "]": -1}.get(head[at], 0)
        if depth == 0:
            break
    inside = head[start + 1:at]
    parts, depth, last = [], 0, ""
    for c in inside:
        if c == "," and depth == 0:
            parts.append(last)
            last = ""
            continue
        depth += {"(": 1, "[": 1, "<": 1, ")": -1, "]": -1, ">": -1}.get(c, 0)
        last += c
    if last.strip():
        parts.append(last)
    return [p.strip() for p in parts], head[at + 1:]


def point_1():
    """Answers as numbers, flags beside values, enums of the shape of Option or Result."""
    for crate, path, text in sources():
        plain = blank(text)
        for m in re.finditer(r"^\s*pub refusal: u8,|^\s*refusal: u8,$", plain, re.M):
            yield path, line_of(plain, m.end()), "a refusal number beside a value"
        for m in re.finditer(r"^(?:pub )?enum (\w+)[^{]*\{(.*?)^\}", plain, re.M | re.S):
            variants = re.findall(r"^    (\w+)(\([^)]*\))?,", m.group(2), re.M)
            carrying = [v for v in variants if v[1]]
            named = {v[0] for v in variants} & {"Refused", "NotHeld", "Nothing", "Done", "Gives", "Fault", "Unknown", "Stored"}
            if len(variants) < 5 and named and (len(carrying) <= 2):
                yield path, line_of(plain, m.start()), f"enum {m.group(1)}"
        for name, public, line, head, body in functions(plain):
            _, rest = parameters(head)
            result = re.search(r"->\s*u8\b", rest.split("requires")[0].split("ensures")[0])
            if result and re.search(r"refus|judge|verdict::[A-Z_]{2}|answered|outputs|\blent\b|converted_lent|window_at|copy_answer", head + body):
                yield path, line, f"fn {name}: a refusal as a number"
        for m in re.finditer(r"^(?:pub )?struct (\w+)[^{;]*\{(.*?)^\}", plain, re.M | re.S):
            for flag in re.findall(r"^\s*(?:pub )?(\w+): bool,", m.group(2), re.M):
                yield path, line_of(plain, m.start()), f"a flag in struct {m.group(1)}: {flag}"
        for m in re.finditer(r"^(?:pub )?const (\w+): (?:u8|u64|usize|i32) = \d+;", plain, re.M):
            if crate in ("protocol", "verdict"):
                yield path, line_of(plain, m.start()), f"a kind as a number: {m.group(1)}"


def shape(body):
    words = re.findall(r"\w+|[^\w\s]", body)
    keep = {"if", "else", "while", "for", "in", "match", "return", "let", "mut", "as", "loop", "true", "false"}
    return " ".join(w if w in keep or not w[0].isalnum() and w[0] != "_" else ("0" if w[0].isdigit() else "x") for w in words)


def point_2():
    """Functions of one crate with parameters whose bodies differ in names and numbers alone."""
    groups = {}
    for crate, path, text in sources():
        for name, public, line, head, body in functions(blank(text)):
            given, _ = parameters(head)
            if body.count("\n") < 3 or all(g.startswith("rt:") for g in given):
                continue
            groups.setdefault((crate, shape(body)), []).append((path, line, name))
    for (crate, _), members in sorted(groups.items(), key=lambda g: g[1][0]):
        if len(members) > 1:
            names = " ".join(m[2] for m in members)
            for path, line, name in members:
                yield path, line, f"fn {name}, alike: {names}"


def point_3():
    """`while` loops whose condition has a variable that goes up or down by one."""
    for crate, path, text in sources():
        plain = blank(text)
        for m in re.finditer(r"^( *)while ([^\n]*) \{\n(.*?)^\1\}", plain, re.M | re.S):
            for v in re.findall(r"\b[a-z_]\w*\b", m.group(2)):
                if re.search(rf"\b{v} (?:\+=|-=) 1;|\b{v} = {v} [+-] 1;", m.group(3)):
                    yield path, line_of(plain, m.start()), f"while {m.group(2)}"
                    break


def point_4():
    """Structs written field for field from another of the same fields, printing by descriptor, and equality by hand."""
    for crate, path, text in sources():
        plain = blank(text)
        for m in re.finditer(r"^( *)(?:return |let \w+ = )?\w+ \{\n(.*?)^\1\}", plain, re.M | re.S):
            copied = re.findall(r"^\s*(\w+): \w+\.\1,$", m.group(2), re.M)
            if len(copied) > 2:
                yield path, line_of(plain, m.start()), f"{len(copied)} fields copied one by one"
        for name, public, line, head, body in functions(plain):
            if re.search(r"\bio::(?:write_all|print_decimal|print_hex)\(", body):
                yield path, line, f"fn {name}: printing by descriptor"
            if re.match(r"same|equal", name):
                yield path, line, f"fn {name}: equality by hand"


def point_5():
    """Functions of seven parameters and more, and facts that stand in the clauses of three functions and more of a crate."""
    for crate, path, text in sources():
        for name, public, line, head, body in functions(blank(text)):
            given, _ = parameters(head)
            if len(given) > 6:
                yield path, line, f"fn {name}: {len(given)} parameters"
    facts = {}
    for crate, path, text in sources():
        for name, public, line, head, body in functions(blank(text)):
            for m in re.finditer(r"requires \w*\s*\{(.*?)\}\n", head, re.S):
                for fact in re.split(r"×", m.group(1)):
                    fact = " ".join(fact.split()).strip("() ")
                    facts.setdefault((crate, fact), []).append((path, line, name))
    for (crate, fact), members in sorted(facts.items()):
        if len(members) > 2:
            path, line, _ = members[0]
            yield path, line, f"asked by {len(members)} functions: {fact}"


def point_6():
    """Arrays with a length beside them, and arrays that go together."""
    for crate, path, text in sources():
        plain = blank(text)
        for m in re.finditer(r"^(?:pub )?struct (\w+)[^{;]*\{(.*?)^\}", plain, re.M | re.S):
            arrays = re.findall(r"^\s*(?:pub )?(\w+): \[[^\]]*\],", m.group(2), re.M)
            lengths = re.findall(r"^\s*(?:pub )?(count|waiting|cores|len|length|taken): u", m.group(2), re.M)
            if len(arrays) > 1:
                yield path, line_of(plain, m.start()), f"struct {m.group(1)}: arrays {' '.join(arrays)}"
            if arrays and lengths:
                yield path, line_of(plain, m.start()), f"struct {m.group(1)}: {' '.join(lengths)} beside {' '.join(arrays)}"


def point_7():
    """`match` on a number that says which function to run."""
    for crate, path, text in sources():
        plain = blank(text)
        for m in re.finditer(r"^( *)match (\w+(?:\.\w+)?) \{\n(.*?)^\1\}", plain, re.M | re.S):
            arms = re.findall(r"^\s+(?:0x[\w_]+|\d+)(?: \| \d+)* => [\w:]+\(", m.group(3), re.M)
            if len(arms) > 2:
                yield path, line_of(plain, m.start()), f"match {m.group(2)}: {len(arms)} calls by number"


def point_8():
    """Lines of proof files, and of answers that only search."""
    for crate in sorted(os.listdir(os.path.join(TOP, "crates"))):
        folder = os.path.join(TOP, "crates", crate, "proofs")
        lines = answers = 0
        for here, _, names in os.walk(folder):
            for name in names:
                if name.endswith(".antt"):
                    with open(os.path.join(here, name), encoding="utf-8") as f:
                        t = f.read()
                    lines += t.count("\n")
                    answers += len(re.findall(r"^pub [\w-]+ : goal\.", t, re.M))
        if lines:
            yield f"crates/{crate}/proofs", 0, f"{lines} lines, {answers} answers"


POINTS = [point_1, point_2, point_3, point_4, point_5, point_6, point_7, point_8]


def main():
    chosen = [int(a) for a in sys.argv[1:] if a.isdigit()]
    crates = [a for a in sys.argv[1:] if not a.isdigit()]
    for i, point in enumerate(POINTS, 1):
        if chosen and i not in chosen:
            continue
        places = [p for p in point() if not crates or p[0].split("/")[1] in crates]
        if chosen:
            for path, line, what in places:
                print(f"{path}:{line}: {what}")
        if i == 8:
            lines = sum(int(re.match(r"(\d+)", p[2]).group(1)) for p in places)
            answers = sum(int(re.search(r"(\d+) answers", p[2]).group(1)) for p in places)
            print(f"{i}. {point.__doc__} {lines} lines, {answers} answers")
        else:
            print(f"{i}. {point.__doc__} {len(places)}")


if __name__ == "__main__":
    main()
