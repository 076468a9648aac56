#!/usr/bin/env python3
"""Turns a function's old Proof.antt into Invariants.antt and, where it is asked, Answers.antt.

usage: tools/convert-proofs.py CRATE NAMES.json               invariants alone, and the old proofs go: much needs no answers
       tools/convert-proofs.py CRATE NAMES.json --open LOG    answers to the goals that LOG, of `rt check --allow-holes`, says are left,
                                                              by the search that the old proof made there

NAMES.json is what `rt check --generated FOLDER --old-names` writes. An old Proof.antt is read from git's last commit where it is gone.
"""

import json
import os
import re
import subprocess
import sys

GENERATED = re.compile(r"\.(Statement|Tie|Reads|Lts|Met|Code|Mir|Symbol|Symbols|Goals|Given)(\.|$)")


def old_proof(crate, fn):
    p = f"crates/{crate}/proofs/{fn.replace('::', '/')}/Proof.antt"
    if os.path.exists(p):
        return open(p).read()
    r = subprocess.run(["git", "log", "-1", "--format=%H", "--diff-filter=AM", "--", p], capture_output=True, text=True).stdout.strip()
    return subprocess.run(["git", "show", f"{r}:{p}"], capture_output=True, text=True).stdout if r else ""


def parts(text):
    """Imports, and top-level definitions in order: name, signature, body."""
    uses, defs, cur = [], [], None
    for line in text.split("\n"):
        if line.startswith("use "):
            uses.append(line)
            continue
        m = re.match(r"^(?:abbrev )?(?:pub )?([\w'-]+) : (.*)$", line)
        if m and not line[0].isspace():
            cur = [m.group(1), m.group(2), []]
            defs.append(cur)
        elif cur is not None:
            cur[2].append(line)
    return uses, defs


def import_lines(uses, body):
    out = []
    for u in uses:
        m = re.match(r"^use ([\w.·'-]+)(?:\.\{(.*)\}| as ([\w'-]+))$", u)
        if not m or GENERATED.search(m.group(1)):
            continue
        if m.group(3):
            if re.search(r"\b" + re.escape(m.group(3)) + r"\.", body):
                out.append(u)
            continue
        keep = []
        for n in m.group(2).split(","):
            n = n.strip()
            word = n.split(" as ")[-1]
            core = word.replace("◌", "")
            if "◌" in word and core and (not re.match(r"\w", core)):
                ok = re.search(r"(?<![^\s()])" + re.escape(core) + r"(?![^\s()])", body)
            elif "◌" in word:
                ok = all(re.search(r"\b" + re.escape(w) + r"\b", body) for w in re.findall(r"\w+", word))
            else:
                ok = re.search(r"(?<![\w'.-])" + re.escape(word) + r"(?![\w'-])", body)
            if ok:
                keep.append(n)
        if keep:
            out.append(f"use {m.group(1)}.{{{', '.join(keep)}}}")
    return out


def substitute(body, names):
    return re.sub(r"(?<![\w'.-])([^\W\d][\w'₀]*(?:-[\w'₀]+)*)(?![\w'-])", lambda m: names.get(m.group(1), m.group(1)), body)


def clause(defn, loop):
    """The body of an old invariant or measure, over the loop's record."""
    text = "\n".join(defn[2]).strip()
    m = re.match(r"^" + re.escape(defn[0]) + r"((?: [^\s=]+)*) =(.*)$", text, re.S)
    if not m:
        return None
    params = m.group(1).split()
    variables, changed = loop
    want = [("l.initial." if c else "l.") + v for v, c in zip(variables, changed)] + ["l." + v for v, c in zip(variables, changed) if c]
    if len(want) != len(params):
        return None
    return substitute(m.group(2).strip(), {p: w for p, w in zip(params, want) if p != "_"})


def gone(path):
    if os.path.exists(path):
        os.remove(path)


def convert(crate, fn, entry, answers):
    text = old_proof(crate, fn)
    if not text:
        return "no old proof"
    folder = f"crates/{crate}/proofs/{fn.replace('::', '/')}"
    if "Tie as tie" not in text:
        gone(f"{folder}/Proof.antt")
        return "a walk by hand"
    uses, defs = parts(text)
    said, made = [], []
    by = {d[0].replace("-", "_"): d for d in defs}
    for (names, variables), changed in zip(entry["loops"], entry["changed"]):
        old, new = names
        o = old.replace("-", "_")
        for kind in ("invariant", "decreases"):
            d = by.get(f"{kind}_{o}")
            if d is None:
                continue
            body = clause(d, (variables, changed))
            if body is None:
                said.append(f"{kind} of {old} by hand")
                continue
            made.append(f"abbrev pub {kind}-{new} : goal.{kind}-{new}\n{kind}-{new} l = {body}\n")
    for d in defs:
        if d[0].startswith("decreases") and "loop" not in d[0]:
            said.append("a measure of a recursion by hand: " + d[0])
    if made:
        body = "\n".join(made)
        lines = import_lines(uses, body) + [f"use Rattle.{crate}.proofs.{fn.replace('::', '.')}.Given as goal"]
        os.makedirs(folder, exist_ok=True)
        open(f"{folder}/Invariants.antt", "w").write("\n".join(lines) + "\n\n" + body)
    if answers:
        whole = "\n".join("\n".join(d[2]) for d in defs)
        sets = re.findall(r"search (\([^()]*\)|[\w'-]+)", whole)
        if not sets:
            return "no ruleset"
        common = max(set(sets), key=sets.count)
        renamed = {new: old for old, new in entry["needs"]}
        named = {}
        for d in defs:
            m = re.match(r"tie\.(?:Need-)?(.*)$", d[1])
            s = re.search(r"= *search (\([^()]*\)|[\w'-]+)\s*$", "\n".join(d[2]).strip())
            if m and s:
                named[m.group(1).replace("-", "_")] = s.group(1)
            elif m and m.group(1) in answers:
                said.append("by hand: " + d[0])
        path = f"{folder}/Answers.antt"
        had = open(path).read() if os.path.exists(path) else ""
        rows = []
        for new in answers:
            if f"pub {new} : " in had:
                continue
            rs = named.get(new.replace("-", "_"), named.get(renamed.get(new, new).replace("-", "_"), common))
            rows.append(f"pub {new} : goal.{new}\n{new} c = search {rs}\n")
        if rows:
            body = "\n".join(rows)
            lines = import_lines(uses, body) + [f"use Rattle.{crate}.proofs.{fn.replace('::', '.')}.Goals as goal"]
            os.makedirs(folder, exist_ok=True)
            if had:
                lines = [l for l in lines if l not in had]
                open(path, "w").write("".join(l + "\n" for l in lines) + had.rstrip("\n") + "\n\n" + body)
            else:
                open(path, "w").write("\n".join(lines) + "\n\n" + body)
    gone(f"{folder}/Proof.antt")
    return "; ".join(said)


def main():
    crate, names = sys.argv[1:3]
    data = json.load(open(names))
    head = f"Rattle-{crate}-proofs."
    left = None
    if "--open" in sys.argv:
        left = {}
        for line in open(sys.argv[4]):
            m = re.match(rf"^fn {crate}::(\S+): no proof: .*`search` did not prove (`[^;]*`)", line)
            if m:
                left[m.group(1)] = re.findall(r"`([^`]*)`", m.group(2))
    for key, entry in data.items():
        if not (key.startswith(head) and key.endswith(".Lts") and "needs" in entry):
            continue
        fn = key[len(head):-len(".Lts")].replace(".", "::")
        if left is not None and fn not in left:
            continue
        said = convert(crate, fn, entry, left and left[fn])
        if said and said != "no old proof":
            print(f"{crate}::{fn}: {said}")


main()
