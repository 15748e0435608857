#!/usr/bin/env python3
"""Lists the places in src/, and of point 8 in proofs/, that an older form of the language may have left, point by point.

Usage: tools/places.py [--list] [POINT ..]

Without --list it prints a number for each kind of place; with it, each place too. It goes by the text alone:
what it lists is to be read, and docs/DESIGN-PASS.md says what was made of each.
"""
import collections
import pathlib
import re
import sys

ROOT = pathlib.Path(__file__).resolve().parent.parent / "crates"

# For each point its kinds, each with the lines that count.
LINES = {
    1: [
        ("an enum of two variants that each hold a value", None),
        ("a flag beside a value", r"^\s*(pub(\(crate\))? )?\w+: bool,$"),
        ("a refusal as an Option", r"-> Option<\w*Refusal>"),
        ("a number for a refusal or a line, or a bool for a failure",
         r"Result<[^>]*(<[^>]*>)?[^>]*, (u8|u16|u32|usize)>|^\s*(pub )?refusal: u8,$|fn (close|relax)\(.*-> bool"),
        ("a match or an else that only makes another Option or Result",
         r"None => None|Err\(\w*\) => Err\(|Ok\(\w*\) => Ok\(|Some\(_\) => None|None => Err\(|Some\(\w+\) => (Some|Ok)\(|let (Ok|Some)\(.*\) = .* else \{|if let Some\(refusal\)"),
    ],
    2: [
        ("a function of the same name in several types", None),
        ("a pair of functions that differ in a constant or a side",
         r"fn (most_link|least_link|raised|lowered|end_above|end_below|read_header|read_rows|some_uncued|count_uncued|add_steps|add_links)\b"),
        ("a constant that stands in several files", None),
    ],
    3: [
        ("a while loop", r"^\s*while "),
        ("a loop over the places of a slice", r"for \w+ in 0\.\.[\w.]*(len\(\)|n \* n)"),
        ("a loop over a range of numbers", r"for (?!_ )\w+ in \(?0\.\.(?![\w.]*(len\(\)|n \* n))"),
        ("a search or a count by a loop of its own", r"^\s*(return (true|false|place);|count \+= 1;|taken = )$|^\s*(return (true|false|place);|count \+= 1;|taken = .*)$"),
    ],
    4: [
        ("an order, a conversion or a text written by hand",
         r"return self\.\w+ < other\.\w+|self\.\w+ < other\.\w+,?$|trait Crossed|impl Crossed|fn (word|tell_\w+|negated)\b"),
        ("a default that stands as a constant", r"^\s*(pub(\(crate\))? )?const (NO_\w+|ABSENT|NONE)\b"),
        ("a match that turns one refusal into another", r"Err\(refusal\) => Err\(\w+::\w+\(refusal\)\)"),
    ],
    5: [
        ("a clause that stands at three functions or more of a crate", None),
        ("three parameters or more that travel together through three functions or more", None),
    ],
    6: [
        ("an array beside others of its length", r"^\s*(pub(\(crate\))? )?\w+: \[.*; MOST\],$"),
        ("a length beside a buffer", r"^\s*(pub(\(crate\))? )?len: usize,$|slots: &mut \[T\], len: usize"),
        ("a rest of a text and a number that are carried along", r"let mut (rest|number) = "),
    ],
    7: [
        ("an enum that only chooses which test or step to run", r"enum (Stop|Call)\b"),
        ("a table of functions, or a boxed one", r"fn\(|dyn "),
    ],
    8: [
        ("a lemma or definition that nothing cites", None),
        ("a file of answers or invariants", None),
        ("a line of proofs", None),
    ],
}


def files():
    for path in sorted(ROOT.glob("*/src/**/*.rt")):
        crate = path.relative_to(ROOT).parts[0]
        yield crate, path, path.read_text().splitlines()


def functions(lines):
    """Each function: its line, its name, its parameters, its clauses."""
    text = "\n".join(lines)
    for match in re.finditer(r"^[ \t]*(?:pub(?:\(\w+\))? )?(?:final )?(?:extern \"C\" )?fn (\w+)[^(]*\(", text, re.M):
        depth, end = 1, match.end()
        while depth:
            depth += {"(": 1, ")": -1}.get(text[end], 0)
            end += 1
        params = [p.strip() for p in re.split(r",(?![^<\[(]*[>\])])", text[match.end():end - 1]) if ":" in p]
        clauses = []
        for line in text[end:].split("\n")[0:40]:
            clause = re.match(r"\s*(requires|ensures)\*? ?\w* \{ (.*) \}\s*$", line)
            if clause:
                clauses.append((clause.group(1), clause.group(2)))
            elif re.match(r"\s*(\{|\}|;)\s*$", line) or line.rstrip().endswith(("{", ";")) and "->" not in line:
                break
        yield text[:match.start()].count("\n") + 1, match.group(1), params, clauses


def by_line(pattern):
    for crate, path, lines in files():
        for number, line in enumerate(lines, 1):
            if not line.lstrip().startswith("//") and re.search(pattern, line):
                yield f"{path.relative_to(ROOT)}:{number}: {line.strip()}"


def two_variants():
    for crate, path, lines in files():
        text = "\n".join(lines)
        for match in re.finditer(r"enum (\w+)[^{]*\{(.*?)\n\}", text, re.S):
            body = re.sub(r"//.*", "", match.group(2))
            variants = [v for v in re.split(r",\s*\n", body.strip().rstrip(",")) if v.strip()]
            if len(variants) == 2 and all("(" in v for v in variants):
                yield f"{path.relative_to(ROOT)}: enum {match.group(1)}"


def same_names():
    homes = collections.defaultdict(list)
    for crate, path, lines in files():
        if crate == "trials":
            continue
        for number, name, params, clauses in functions(lines):
            if name in ("number", "place") and "u8" in lines[number - 1] + lines[number] or name == "place" and "Option" in lines[number - 1]:
                homes[name].append(f"{path.relative_to(ROOT)}:{number}: fn {name}")
    for name in sorted(homes):
        if len(homes[name]) > 1:
            yield from homes[name]


def same_constants():
    homes = collections.defaultdict(list)
    for crate, path, lines in files():
        for number, line in enumerate(lines, 1):
            match = re.match(r"\s*(?:pub(?:\(crate\))? )?const (\w+): (?:GroupEntry|Link|LooseEnd|Row|Group|Span)\b", line)
            if match:
                homes[match.group(1)].append(f"{path.relative_to(ROOT)}:{number}: {match.group(1)}")
    for name in sorted(homes):
        if len(homes[name]) > 1:
            yield from homes[name]


def common_clauses():
    for crate in sorted({c for c, _, _ in files()}):
        homes = collections.defaultdict(set)
        for other, path, lines in files():
            if other == crate:
                for number, name, params, clauses in functions(lines):
                    for kind, clause in clauses:
                        if kind == "requires":
                            homes[re.sub(r"\.(now|old|new)\b", "", clause)].add(f"{path.name}:{name}")
        for clause, where in sorted(homes.items(), key=lambda item: -len(item[1])):
            if len(where) >= 3:
                yield f"{crate}: {{ {clause} }} at {len(where)} functions"


def common_parameters():
    for crate in sorted({c for c, _, _ in files()}):
        groups = collections.Counter()
        for other, path, lines in files():
            if other == crate and crate != "trials":
                for number, name, params, clauses in functions(lines):
                    names = sorted({p.split(":")[0].replace("mut ", "").strip() for p in params})
                    for i in range(len(names)):
                        for j in range(i + 1, len(names)):
                            for k in range(j + 1, len(names)):
                                groups[(names[i], names[j], names[k])] += 1
        for names, count in sorted(groups.items(), key=lambda item: (-item[1], item[0])):
            if count >= 3:
                yield f"{crate}: ({', '.join(names)}) at {count} functions"


def proofs():
    for path in sorted(ROOT.glob("*/proofs/**/*.antt")):
        yield path, path.read_text()


def uncited():
    texts = [path.read_text() for path in sorted(ROOT.glob("*/*/**/*.antt")) if path.parts[-3] != "out"]
    texts += ["\n".join(lines) for _, _, lines in files()]
    for path, text in proofs():
        if path.parent.name == "proofs":
            for name in re.findall(r"^ *(?:pub |abbrev |abbrev pub )?([\w'-]+) :(?: |$)", text, re.M):
                word = re.compile(r"(?<![\w'-])" + re.escape(name) + r"(?![\w'-])")
                own = re.compile(r"^ *(?:pub |abbrev |abbrev pub )?" + re.escape(name) + r"(?![\w'-])", re.M)
                if sum(len(word.findall(t)) for t in texts) == len(own.findall(text)):
                    yield f"{path.relative_to(ROOT)}: {name}"


def answers():
    for path, text in proofs():
        if path.parent.name != "proofs":
            yield f"{path.relative_to(ROOT)}"


def proof_lines():
    for path, text in proofs():
        yield from (f"{path.relative_to(ROOT)}:{n}" for n, _ in enumerate(text.splitlines(), 1))


OWN = {
    "a lemma or definition that nothing cites": uncited,
    "a file of answers or invariants": answers,
    "a line of proofs": proof_lines,
    "an enum of two variants that each hold a value": two_variants,
    "a function of the same name in several types": same_names,
    "a constant that stands in several files": same_constants,
    "a clause that stands at three functions or more of a crate": common_clauses,
    "three parameters or more that travel together through three functions or more": common_parameters,
}


def main(arguments):
    listed = "--list" in arguments
    points = [int(a) for a in arguments if a.isdigit()] or sorted(LINES)
    for point in points:
        for kind, pattern in LINES[point]:
            places = list(OWN[kind]() if pattern is None else by_line(pattern))
            print(f"{point}  {len(places):3}  {kind}")
            if listed:
                for place in places:
                    print(f"         {place}")


main(sys.argv[1:])
