#!/usr/bin/env python3
"""Counts, in crates/*/src, the places of each point of docs/DESIGN-PASS.md. `tools/places.py [FOLDER] [--list]`: FOLDER is a checkout (this one
where none is named), --list prints each place."""
import glob
import os
import re
import sys

arguments = [a for a in sys.argv[1:] if not a.startswith("--")]
listing = "--list" in sys.argv
root = arguments[0] if arguments else os.path.join(os.path.dirname(os.path.abspath(__file__)), "..")


def sources():
    for path in sorted(glob.glob(os.path.join(root, "crates", "*", "src", "**", "*.rt"), recursive=True)):
        yield os.path.relpath(path, os.path.join(root, "crates")), open(path).read()


FILES = list(sources())


def code(text):
    """The text without comments, ghost lines, clauses and attributes, with line numbers kept."""
    lines = []
    clause = 0
    for line in text.split("\n"):
        bare = re.sub(r"//.*", "", line)
        stripped = bare.strip()
        if clause or re.match(r"(pub )?(ghost |requires|ensures)", stripped):
            clause += bare.count("{") - bare.count("}")
            clause = max(clause, 0)
            bare = ";" if bare.rstrip().endswith("};") and not stripped.startswith(("ghost", "pub ghost")) else ""
        lines.append(bare)
    return "\n".join(lines)


CODE = [(name, code(text)) for name, text in FILES]


def found(pattern):
    places = []
    for name, text in CODE:
        for m in re.finditer(pattern, text):
            line = text.count("\n", 0, m.start()) + 1
            places.append((name, line, " ".join(m.group(0).split())[:100]))
    return places


def functions():
    """Every function as (file, line, name, signature, body)."""
    for name, text in CODE:
        for m in re.finditer(r"\bfn (\w+)", text):
            opening = text.find("{", m.end())
            if opening < 0 or ";" in re.sub(r"\[[^\]]*\]", "", text[m.end() : opening]):
                continue
            depth, at = 0, opening
            while at < len(text):
                depth += {"{": 1, "}": -1}.get(text[at], 0)
                at += 1
                if depth == 0:
                    break
            yield name, text.count("\n", 0, m.start()) + 1, m.group(1), text[m.start() : opening], text[opening:at]


WORDS = set("let mut if else match for in while loop return break continue fn pub self Self as ref move true false Some None Ok Err".split())


def shape(body):
    tokens = re.findall(r'b?"(?:\\.|[^"\\])*"|b?\'(?:\\.|[^\'\\])+\'|\w+|[^\s\w]', body)
    out = []
    for t in tokens:
        if t[0] in "\"'" or t[:2] in ('b"', "b'"):
            out.append("t")
        elif t[0].isdigit():
            out.append("0")
        elif t in WORDS:
            out.append(t)
        elif re.match(r"\w", t):
            out.append("x")
        else:
            out.append(t)
    return out


def twins():
    """Functions of at least 25 tokens that are another's text but for names, numbers and texts."""
    groups = {}
    for name, line, function, signature, body in functions():
        tokens = shape(body)
        if len(tokens) >= 25:
            groups.setdefault(" ".join(tokens), []).append((name, line, function))
    return [place for group in groups.values() if len(group) > 1 for place in group]


def chains():
    """Functions that go through a list of words by one comparison after the other."""
    places = []
    for name, line, function, signature, body in functions():
        if len(re.findall(r'\bsame\(\w+, b"', body)) > 1:
            places.append((name, line, function))
    return places


def pairs_of_parameters():
    places = []
    for name, line, function, signature, body in functions():
        if re.search(r"(text|profile|s|bytes): &(?:'a )?\[u8\],\s*(at|next|first|open|place|members|end|start|value|values|i|m|part|role)\b", signature):
            places.append((name, line, function))
    return places


def same_text(pattern):
    return found(pattern)


POINTS = [
    ("1 shapes of Option and Result by hand", [
        ("an Option of an Option", r"Option<Option<"),
        ("a flag as a field or a parameter", r"\b\w+: bool\b"),
        ("a number for a kind, a refusal or a cause (a field, a parameter or a result)", r"\b(?:number|cause)\w*: (?:u8|usize)\b|fn (?:number|cause)\(self\) -> u8|cause as u8"),
        ("a match that hands on what it takes", r"Some\((\w+)\) => Some\(\1\)|Ok\((\w+)\) => Ok\(\2\)|Err\((\w+)\) => Err\(\3\)|Ok\(_\) => Ok\(\(\)\)|None => None"),
        ("0 for none", r"(?:_|None) => 0\b|_ => \(0|\n    0\n\}"),
        ("a pair of grades without its name", r"\(Grade, Grade\)"),
        ("a place for the rest of a list", r"\b(?:next|first|nested|version|properties|schemas|values|conditions|members|rest): Option<usize>"),
    ]),
    ("2 twins", [("functions alike but for names, numbers and texts", twins), ("words by a chain of comparisons", chains)]),
    ("3 loops that count or step by hand", [
        ("a place stepped on by hand", r"\b(?:next|rest) = (?:\w+\.)?(?:next|\w+\.next)\b|\b(?:i|j|n|end|at|count|place|next|left) (?:\+=|-=) "),
        ("an index over a range", r"for \w+ in \w+\.\.=?(?:\w+(?:\.\w+(?:\(\))?)*)"),
        ("while", r"\bwhile\b"),
        ("loop", r"\bloop\b"),
    ]),
    ("4 derives and conversions by hand", [
        ("a comparison, an order or an exchange of one's own", r"fn (?:same|order|below|ahead|ahead_far|swap|stricter|is_order|least)\("),
        ("a public type with Clone and Copy alone", r"#\[derive\(Clone, Copy\)\]\s*pub (?:struct|enum) \w+"),
        ("a refusal printed from its parts", r'println!\([^)]*\{(?:number|cause)\}'),
        ("if fine, Ok, else this fault", r"Ok\(\(\)\)\s*\} else \{|\} else \{\s*Ok\(\(\)\)\s*\}"),
        ("bytes put together or taken apart one by one", r"from_[bl]e_bytes\(\["),
    ]),
    ("5 parameters that travel together", [("bytes and a place in them", pairs_of_parameters)]),
    ("6 buffers with a length, arrays side by side, searches by hand", [
        ("an array with a count beside it", r"\[(?:\w+|\w+ \{[^}]*\}); (?:1024|ROWS|\w+)\]"),
        ("an own heap, or a sorted list by hand", r"fn (?:sift|sort|child|start_of)\("),
    ]),
    ("7 switches on a step", [
        ("a reader by its number or name", r"enum Reader|match reader|match number"),
        ("Options that say which step comes", r"pub\(crate\) (?:nested|version|properties|schemas): Option<usize>"),
    ]),
]


def proofs():
    count = lines = 0
    for path in glob.glob(os.path.join(root, "crates", "*", "proofs", "**", "*.antt"), recursive=True):
        if os.path.basename(path) == "Answers.antt":
            count += 1
        lines += open(path).read().count("\n")
    return count, lines


for title, rows in POINTS:
    total = 0
    parts = []
    for label, finder in rows:
        places = finder() if callable(finder) else found(finder)
        total += len(places)
        parts.append((label, places))
    print(f"{title}: {total}")
    for label, places in parts:
        print(f"    {label}: {len(places)}")
        if listing:
            for place in places:
                print("       ", *place)
answers, lines = proofs()
print(f"8 proofs: {answers} files of answers, {lines} lines of proofs")
