#!/usr/bin/env python3
"""Turns the names that Rattle makes of the code in the proof files of functions, by the lists of `rt names FOLDER`.

usage: python3 tools/turn_places.py FOLDER [CRATE..]
"""
import json
import os
import re
import sys

NAME = r"[^\s(){}.;,@\"«»`\[\]]+"


# Fields whose own fields are names of the source.
KEPT = {"args", "new", "auto", "old", "now", "invariant", "result", "requires", "ensures", "entry"}


def norm(w):
    return w.replace("_", "-")


def main(argv):
    folder, crates = argv[0], argv[1:]
    for crate in sorted(os.listdir("crates")):
        if crates and crate not in crates:
            continue
        path = os.path.join(folder, "crates", crate, "names.json")
        if not os.path.exists(path):
            continue
        with open(path) as f:
            names = json.load(f)
        base = os.path.join("crates", crate, "proofs")
        for root, dirs, files in os.walk(base):
            if "Proof.antt" not in files:
                continue
            parts = os.path.relpath(root, base).split(os.sep)
            last = parts[-1]
            lts = "Lts-" + last[1:] if last.startswith("+") else "Lts"
            key = f"Rattle-{crate}-proofs." + ".".join(parts) + "." + lts
            if key not in names:
                print("no names:", key)
                continue
            turn(os.path.join(root, "Proof.antt"), names[key])


def turn(path, x):
    with open(path, encoding="utf-8") as f:
        text = f.read()
    needs = {}
    for a, b in x["needs"]:
        a = norm(a)
        needs[a] = b
        for head in ("overflow-", "nonzero-"):
            needs.setdefault(head + a, b)
        if a.startswith("part-"):
            needs.setdefault("slice-bounds-" + a[5:], b)
    places = {}
    for p, new in zip(x["places"], x["places_by_name"]):
        places[norm(p[0])] = new
    fields, facts = {}, {}
    for p in x["places"]:
        old, new = p[2]
        if old:
            fields[norm(old)] = new
        if p[4]:
            facts.setdefault(new, {}).update({a: b for a, b in p[4]})
    loops = {norm(a): b for (a, b), _ in x["loops"]}
    for a, b in list(loops.items()):
        fields.setdefault(a, b)
        fields.setdefault(a + "-test", b + "-test")
    arguments = {norm(p[2][0]) for p in x["places"] if p[2][0] and p[2][1] == p[2][0] + "-1"}
    out, missed = [], []
    for line in text.split("\n"):
        m = re.search(r"(?:^|\s)--(?=\s|$)", line)
        at = m.start() if m else len(line)
        code, rest = line[:at], line[at:]

        def sub(m):
            w, before = m[0], code[: m.start()]
            n = norm(w)
            if before.endswith("tie."):
                if n.startswith("Need-"):
                    k = n[5:]
                    if k in needs:
                        return "Need-" + needs[k]
                    missed.append(w)
                    return w
                for head in ("invariant-", "decreases-", "Inv-", "μ-"):
                    if n.startswith(head) and n[len(head) :] in loops:
                        return head + loops[n[len(head) :]]
                if n in places:
                    return places[n]
                if n not in ("spec", "close", "statement", "Spec"):
                    missed.append(w)
                return w
            if before.endswith("."):
                back = re.search(r"([^\s(){};,@\"«».]+|\))\.$", before)
                last = back[1] if back else ""
                if last == "before":
                    return fields.get(n, w)
                if w == "pre":
                    return "requires"
                if w == "inv":
                    return "invariant"
                if last in KEPT or norm(last) in loops or last in loops.values() or n in arguments:
                    return w
                return fields.get(n, w)
            for head in ("invariant-", "decreases-"):
                if n.startswith(head) and n[len(head) :] in loops:
                    return head + loops[n[len(head) :]]
            return w

        code = re.sub(NAME, sub, code)
        out.append(code + rest)
    new = "\n".join(out)
    for field, turns in facts.items():
        for a, b in turns.items():
            new = re.sub(r"(\." + re.escape(field) + r")\." + re.escape(a) + r"(?![\w'-])", r"\1.@@" + b, new)
    new = new.replace("@@", "")
    if missed:
        print(path, "missed:", sorted(set(missed)))
    if new != text:
        with open(path, "w", encoding="utf-8") as f:
            f.write(new)


if __name__ == "__main__":
    main(sys.argv[1:])
