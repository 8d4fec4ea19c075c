#!/usr/bin/env python3
"""Counts the places that docs/DESIGN-PASS.md speaks of, point by point, in the crates of a tree.

Usage: design_places.py [TREE] [-v]    TREE: a checkout (this one, if not given); -v lists every place."""
import pathlib
import re
import sys

words = [it for it in sys.argv[1:] if it != "-v"]
tree = pathlib.Path(words[0] if words else pathlib.Path(__file__).resolve().parent.parent)
sources = sorted(tree.glob("crates/*/src/**/*.rt"))


def code(file):
    """A file's text without its comments, ghost imports and clauses."""
    kept = []
    clause = 0
    for line in file.read_text().split("\n"):
        bare = re.sub(r"//.*", "", line)
        if clause or re.match(r"\s*(requires|ensures)\b", bare):
            clause += bare.count("{") - bare.count("}")
            bare = ""
        elif bare.startswith("ghost use"):
            bare = ""
        kept.append(bare)
    return "\n".join(kept)


texts = {file: code(file) for file in sources}


def places(pattern, flags=re.M):
    found = []
    for file, text in texts.items():
        for hit in re.finditer(pattern, text, flags):
            line = text[: hit.start()].count("\n") + 1
            found.append(f"{file.relative_to(tree)}:{line}: {' '.join(hit.group(0).split())[:90]}")
    return found


def parts(fact):
    """The facts of a clause: what stands between × outside of brackets."""
    found, deep, start = [], 0, 0
    for at, c in enumerate(fact):
        deep += (c in "([{") - (c in ")]}")
        if c == "×" and deep == 0:
            found.append(fact[start:at])
            start = at + 1
    found.append(fact[start:])
    found = [" ".join(it.split()) for it in found]
    if len(found) > 1 or not re.fullmatch(r"\(.*\)", found[0]):
        return [it for part in found for it in (parts(part[1:-1]) if re.fullmatch(r"\(.*\)", part) else [part])]
    return parts(found[0][1:-1])


def asked():
    """Facts that the clauses of three or more functions of a crate ask: one place for each function."""
    by_fact = {}
    for file in sources:
        bare = re.sub(r"//.*", "", file.read_text())
        heads = list(re.finditer(r"\bfn (\w+)", bare))
        for head, behind in zip(heads, heads[1:] + [None]):
            text = bare[head.start() : behind.start() if behind else len(bare)]
            for clause in re.finditer(r"^\s+requires( \w+)? \{", text, re.M):
                deep, end = 1, clause.end()
                while deep:
                    deep += (text[end] == "{") - (text[end] == "}")
                    end += 1
                for fact in parts(text[clause.end() : end - 1].strip()):
                    by_fact.setdefault((file.relative_to(tree).parts[1], fact), {})[f"{file.relative_to(tree)}: {head[1]}"] = None
    return [f"{fact}: {place}" for (_, fact), where in sorted(by_fact.items()) if len(where) >= 3 for place in where]


def lists(types):
    """Functions whose parameters hold these types in a row."""
    row = r"\s*,\s*".join(rf"\w+: {re.escape(it)}" for it in types)
    return places(rf"\bfn \w+(<[^>]*>)?\([^)]*{row}", re.M | re.S)


POINTS = {
    "1 own enums with a case for nothing or a refusal": places(r"^(pub )?enum \w+ \{\n(?:(?!\}).*\n)*? +(Misprinted|Refused|NoNumber|Nothing|Falls)\b", re.M),
    "1 flags beside a value": places(r"^    (pub )?(good|blank|plain): bool,$(?=[^()]*\n\})", re.M),
    "1 a largest number for none": places(r"\bMISPRINT\b"),
    "1 a count of lines for none": places(r"^    lines\n\}"),
    "1 a 0 for none": places(r"\b(return|break) 0;"),
    "1 refusals by their number": places(r"\b(Refused|refused|no_line|refusal|Ending::Refused)\((\d+)"),
    "1 kinds by their number": places(r"\blayout [=!]= [12]\b|: u8 = [012];|\bphase_of\(|\bphase_number\("),
    "1 kinds by their letter": places(r"\b(letter|mark) == b'|^\s*b'[A-Z]'( \| b'[A-Z]')* =>"),
    "3 loops": places(r"^\s*(.*= )?('\w+: )?(while|loop)\b.*"),
    "4 by hand": places(
        r"\bfn (same_\w+|equals_at|still_same|lesser|up|wide|as_digit|\w+_answer|no_line|phase_number|phase_of|kind|figure|is_tune_in|is_ended|is_mark|say_number|is_leading|was_ended)\("
    ),
    "5 settings loose": lists(["u64", "u64", "u64", "u64"]),
    "5 text, plain, figures": places(r"\bfn \w+[^)]*\bplain: bool[^)]*\)", re.M | re.S),
    "5 figures and segment": lists(["Figures", "Segment"]),
    "5 figures and source": lists(["Figures", "Source"]),
    "5 image and count": places(r"\bfn \w+\(image: &\[u8\], count: u64", re.M),
    "5 letter, numbers, body, lent": places(r"\bfn \w+(<[^>]*>)?\([^)]*numbers: &Numbers", re.M | re.S),
    "5 facts that three or more functions ask": asked(),
    "6 parallel arrays": places(r"^    (pub )?(\w+_)?(tags|distances): \[u64; [^\]]*\],"),
    "6 a length beside a buffer": places(r"\bfn \w+\((list|buffer): &(mut )?\[u8\],\s*lines: u64|count: usize,\s*tags: (&'a )?\[u64|pairs: usize,\s*tags: &'a \[u64", re.M),
    "7 switches": places(r"\bmatch (source|letter|phase|kind)\b|\bf\.layout == 1"),
}

for name, found in POINTS.items():
    print(f"{len(found):4}  {name}")
    if "-v" in sys.argv:
        for it in found:
            print(f"        {it}")
walks = len(list(tree.glob("crates/*/proofs/**/Proof.antt")))
print(f"{walks:4}  8 proofs that walk the code by paths")
lines = sum(len(it.read_text().splitlines()) for kind in ("Proof", "Answers", "Invariants") for it in tree.glob(f"crates/*/proofs/**/{kind}.antt") if it.parent.name != "proofs")
print(f"{lines:4}  8 lines of functions' proofs")
