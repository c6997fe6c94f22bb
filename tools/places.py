#!/usr/bin/env python3
"""Finds the places in crates/*/src that docs/DESIGN-PASS.md counts, point by point: tools/places.py [POINT [FOLDER]] prints each place of
the point (0: of all) in the checkout FOLDER, without one in this, and then the counts.

It goes by text, so a place is one to look at. Twins (point 2) and proofs (point 8) are counted in the page."""
import re
import sys
from pathlib import Path

LIMITS = re.compile(r"^(LEAST_|MOST_|ROWS|WORDS|SIGNS|REGISTERS|GROUPS|LAMPS|BYTES|INSTRUCTIONS|PAIRS|WIDTH|PLACES|QUESTIONS|KEY_BYTES|LINE_BYTES"
                    r"|ENOUGH|HALF|FORMS$|FILLINGS|FRONT|HOLDER_NODES|TAB|LINE_FEED|NOUGHT|NINE|BEFORE|ALL_FREE|UNION|DIFFERENCE|INTERSECTION|LAST_ALONE"
                    r"|MARK_|DRAWING)")
NONE_VARIANTS = {"Root", "Stuck", "Blocked", "TooLong", "Never", "Bad", "Short", "No", "Done"}
NONE_WORDS = re.compile(r"\b(0|4|2|`[A-Z_]+`|the list's length|their number|all) (if|where|for) (there (is|are) )?(none|no |any other|the list is over)"
                        r"|for none\b|if there is none|; 0 where|0 and 0 where|stands for more|where there is none|0 if none|`FORMS` if none|both 0 where")
TOGETHER = [("on", "off"), ("signs", "lengths"), ("starts", "needs"), ("out", "at"), ("from", "to"), ("b", "c"), ("low", "high"), ("kind", "target"),
            ("w", "columns"), ("code", "patch")]


def functions(text):
    """(line, comment, name, parameters, body) of each function."""
    for m in re.finditer(r"^([ ]*)(?:pub )?(?:extern \"C\" )?fn (\w+)[^(]*\(", text, re.M):
        depth, i = 1, m.end()
        while depth:
            depth += {"(": 1, ")": -1}.get(text[i], 0)
            i += 1
        parameters = text[m.end():i - 1]
        end = re.compile(r"^" + m.group(1) + r"\}", re.M).search(text, i)
        before = text[:m.start()].rstrip("\n").split("\n")
        comment = []
        while before and before[-1].strip().startswith(("//", "#[")):
            comment.insert(0, before.pop().strip("/ "))
        yield text[:m.start()].count("\n") + 1, " ".join(comment), m.group(2), parameters, text[i:end.end() if end else len(text)]


def places(path, text):
    """(point, line, what) of each place in a file."""
    for m in re.finditer(r"^pub enum (\w+) \{\n(.*?)^\}|^enum (\w+) \{\n(.*?)^\}", text, re.M | re.S):
        name, body = m.group(1) or m.group(3), m.group(2) or m.group(4)
        names = set(re.findall(r"^    (\w+)", body, re.M))
        if "Refused" in names or (names & NONE_VARIANTS and re.search(r"^    \w+ ?[({]", body, re.M)) or "No" in names:
            yield 1, text[:m.start()].count("\n") + 1, f"enum {name}"
    for m in re.finditer(r"^(?:pub )?const (\w+): (?:u8|u16|usize) = (?:\d+|\w+ \+ 1|tree::MOST_GROUPS as u8);", text, re.M):
        if not LIMITS.match(m.group(1)):
            yield 1, text[:m.start()].count("\n") + 1, f"constant {m.group(1)}"
    for m in re.finditer(r"^    (?:pub )?(number|fault|kind|phase|state|own|parent): (?:u8|u16|usize),", text, re.M):
        yield 1, text[:m.start()].count("\n") + 1, f"field {m.group(1)}"
    for line, comment, name, parameters, body in functions(text):
        flat = " ".join(parameters.split())
        if NONE_WORDS.search(comment) and "Option<" not in body.split("{")[0]:
            yield 1, line, f"fn {name}: a value for none"
        for n, m in enumerate(re.finditer(r"^\s*(while|loop)\b.*$", body, re.M)):
            yield 3, line + body[:m.start()].count("\n") + parameters.count("\n"), f"fn {name}: {m.group(0).strip()}"
        if re.search(r"\n\{\n    \w+ as \w+\n\}", body) or re.fullmatch(r"(same|same_rows|is_drop|starts_with_first|larger|number|number_of|count|form_of|fill)", name) \
                or re.search(r"^    match \w+ \{\n(\s+\w+::\w+(\(\w+\))? => (true|false),.*\n){3,}", body, re.M):
            yield 4, line, f"fn {name}"
        for a, b in TOGETHER:
            if re.search(rf"\b{a}: ", flat) and re.search(rf"\b{b}: ", flat):
                yield 5, line, f"fn {name}: {a}, {b}"
        if re.search(r"^    let mut top", body, re.M):
            yield 6, line, f"fn {name}: a stack by hand"
        if re.search(r"\b(device: \S*Device|tasks: bool|alone: bool)\b|\bleft: usize, (shown|index)", flat):
            yield 7, line, f"fn {name}: {flat[-60:]}"
    for m in re.finditer(r"^(?:pub )?struct (\w+) \{\n(.*?)^\}", text, re.M | re.S):
        arrays = re.findall(r": \[", m.group(2))
        if len(arrays) > 1:
            yield 6, text[:m.start()].count("\n") + 1, f"struct {m.group(1)}: arrays side by side"
        if arrays and re.search(r"(count|nodes|marked|reply|lengths): ", m.group(2)):
            yield 6, text[:m.start()].count("\n") + 1, f"struct {m.group(1)}: an array and its count"


def main():
    only = int(sys.argv[1]) if len(sys.argv) > 1 else 0
    counts = {}
    root = Path(sys.argv[2]) if len(sys.argv) > 2 else Path(__file__).resolve().parent.parent
    for path in sorted(root.glob("crates/*/src/*.rt")):
        for point, line, what in sorted(places(path, path.read_text())):
            counts[point] = counts.get(point, 0) + 1
            if only in (0, point):
                print(f"{point} {path.relative_to(root)}:{line} {what}")
    print(", ".join(f"point {p}: {counts.get(p, 0)}" for p in range(1, 8) if p != 2))


main()
