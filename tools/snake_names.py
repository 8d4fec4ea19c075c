#!/usr/bin/env python3
"""Spells the repository's own definitions and lemmas as today's Rattle does: in snake case.

usage: python3 tools/snake_names.py [--list]

Run once, at the top of the repository, behind the kit's port.py. It goes by text over the .antt files of crates/, the ghost
parts of the .rt files, the must-fail edits, and the pages of docs/ and README.md. A word in camel case gets underscores
(`bucketLength` becomes `bucket_length`), and so does each dash in a name that the repository declares. A lemma that would have a
definition's name gets `_lem`. Types, facts and modules keep their capitals; names that Rattle makes of
the code (`invariant-loop`, `Need-returns`), names of the library and Rust's names stay as they are. --list prints what it would
turn, and where two names fall together.
"""
import os
import re
import sys

NAME = r"[^\s(){}.;,@\"«»`]+"
CAMEL = re.compile(r"[a-z][a-z0-9]*(?:[A-Z][a-z0-9]*)+")
# Heads of names that Rattle makes of the code.
MADE = ("invariant-", "decreases-", "Need-", "After-", "At-", "In-", "Then", "Else", "Joined", "Told", "measure-")
DECLARED = re.compile(r"(?m)^ *(?:(?:pub|abbrev|unfoldable|let|in|record|data) +)*(" + NAME + r")(?: \{[^{}\n]*\})* :(?=\s)")
LET = re.compile(r"(?:\blet|λ \(?) *(" + NAME + r") *(?=[:=.])")
# Arguments of lemmas, which no declaration names.
LOCAL = set(
    """
    as-awaited bare-p bare-q distances-are e-held end-sum image-is index-here j-is k-low more-runs none-dozed
    none-leading now-blank o-back o-only p-held p-only pairs-are part-is quiet-p quiet-q rest-sent same-d same-k
    same-n sent-first start-sum steps-fit tare-small tune-in tune-in₀ wide-code wide-tare wide-weighing
""".split()
)
# Names that plain snake case would have meet another, and one of a single capital: old -> new, with the files they stand in.
GIVEN = [
    ("crates/", {"pair_fits": "pair_fits_lem", "block_start": "block_start_lem", "run_on": "run_on_lem"}),
    ("crates/listener/proofs/Lost.antt", {"end_by": "end_by_lem"}),
    ("crates/listener/proofs/HeardLimit.antt", {"count_most": "count_most_lem"}),
    ("crates/listener/", {"S": "list_s"}),
]


def files():
    for root, dirs, names in os.walk("crates"):
        dirs[:] = sorted(d for d in dirs if d != "out")
        for n in sorted(names):
            if n.endswith((".antt", ".rt", ".edit")):
                yield os.path.join(root, n)


def pages():
    yield "README.md"
    for root, dirs, names in os.walk("docs"):
        for n in sorted(names):
            if n.endswith(".md") and n != "PORT.md":
                yield os.path.join(root, n)
    yield "host/README.md"


def read(path):
    with open(path, encoding="utf-8") as f:
        return f.read()


def snake_part(word):
    """camelCase, whose first letter is small, in snake case; the rest as it is."""
    m = CAMEL.match(word)
    if not m:
        return word
    return re.sub(r"(?<=[a-z0-9])[A-Z]|[A-Z](?=[a-z])", lambda x: "_" + x[0].lower(), m[0]).lower() + word[m.end() :]


def main(argv):
    texts = {p: read(p) for p in files()}
    antt = {p: t for p, t in texts.items() if p.endswith(".antt")}
    declared = set(LOCAL)
    for p, t in antt.items():
        for m in list(DECLARED.finditer(t)) + list(LET.finditer(t)):
            declared.add(m[1])
    def joined(word):
        """word in snake case, with plain underscores."""
        return "_".join(w.lower() if len(w) == 1 and w.isascii() else snake_part(w) for w in word.split("-"))

    turned = {}
    words = set()
    for t in antt.values():
        words |= set(re.findall(NAME, t))
    for w in words:
        if w.startswith(MADE) or w[:1].isupper() and "-" not in w:
            continue
        if "-" in w and w in declared and re.fullmatch(r"[\w'₀-₉-]+", w):
            new = joined(w)
        elif CAMEL.match(w) or "-" in w and any(CAMEL.match(x) for x in w.split("-")):
            new = "-".join(snake_part(x) for x in w.split("-")) if "-" in w else snake_part(w)
        else:
            continue
        if new != w:
            turned[w] = new
    # A lemma that would have a definition's name gets `_lem`.
    met = {}
    for w, n in turned.items():
        met.setdefault(n, []).append(w)
    for n, ws in met.items():
        dashed = [w for w in ws if "-" in w]
        others = [w for w in ws if "-" not in w] + ([n] if n in words and n not in turned else [])
        if dashed and others:
            for w in dashed:
                turned[w] = n + "_lem"
    met = {}
    for w, n in turned.items():
        met.setdefault(n, []).append(w)
    bad = [(n, ws) for n, ws in sorted(met.items()) if len(ws) > 1 or n in words and n not in turned]
    if "--list" in argv:
        for w in sorted(turned):
            print(w, "->", turned[w])
        for n, ws in bad:
            print("together:", n, ws, "(stands already)" if n in words else "")
        return 0

    def respell(text, path):
        here = dict(turned)
        if path.endswith((".antt", ".edit")):
            for start, more in GIVEN:
                if path.startswith(start):
                    here |= more
        return re.sub(NAME, lambda m: here.get(m[0], m[0]), text)

    def prose(text):
        """Comments and pages: words in camel case, and names between backticks."""
        text = re.sub(r"`[^`\n]+`", lambda m: respell(m[0], ""), text)
        return re.sub(NAME, lambda m: turned[m[0]] if CAMEL.fullmatch(m[0]) and m[0] in turned else m[0], text)

    for p, t in texts.items():
        lines = []
        for line in t.split("\n"):
            if p.endswith(".edit"):
                lines.append(respell(line, p) if line.startswith(("old:", "new:")) else prose(line))
                continue
            mark = re.search(r"(?:^|\s)--(?=\s|$)" if p.endswith(".antt") else r"(?:^|\s)//", line)
            at = mark.start() if mark else len(line)
            code = line[:at]
            if p.endswith(".antt") or '"' not in code:
                code = respell(code, p)
            lines.append(code + prose(line[at:]))
        new = "\n".join(lines)
        if p.endswith("/Proof.antt"):
            f = os.path.basename(os.path.dirname(p)).lstrip("+") + "_spec"
            m = re.search(r"^pub ([\w']+_spec)\b", new, re.M)
            if m:
                new = re.sub(r"(?<![\w'-])" + re.escape(m[1]) + r"(?![\w'-])", f, new)
        if new != t:
            with open(p, "w", encoding="utf-8") as f:
                f.write(new)
    for p in pages():
        if os.path.exists(p):
            t = read(p)
            new = prose(t)
            if new != t:
                with open(p, "w", encoding="utf-8") as f:
                    f.write(new)
    return 0


if __name__ == "__main__":
    raise SystemExit(main(sys.argv[1:]))
