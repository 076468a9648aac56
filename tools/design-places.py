#!/usr/bin/env python3
"""Places in crates/*/src that an older language would have left as they are, by the eight points of docs/DESIGN-PASS.md.

    tools/design-places.py [POINT..]      lists them, `file:line: text`, and counts them; no POINT: the counts alone

It goes by text: it finds places to look at, and docs/DESIGN-PASS.md says which of them are what they seem. To count an older commit, run it
in a worktree of that commit, as `(cd WORKTREE; python3 PATH/design-places.py)`.
"""
import collections
import glob
import re
import sys

FILES = sorted(glob.glob("crates/*/src/*.rt"))
LINES = {f: open(f, encoding="utf-8").read().split("\n") for f in FILES}

# Cases that say that there is nothing, or why not.
NOTHING = r"(Missing|Short|Absent|Refused|Wrong|Fault|Over|Outside|Malformed|Stop|IllFormed|IllGrouped|Unsound|Nowhere|Nothing|Pass|Fits)"
CODED = r"\b(refusal|due|gap|fill|phase|axis|asked|key|source): u(8|32)\b|\bnumber: u32, offset|^ *number: u32,$"
NONE = r"//.*\b(0|32|100001|200,000,000) (for|where|in|past|if|behind|once|is) "
CONVERTS = r"fn (wide|narrow|byte|byte_of|least|within|magnitude|shown|one_less|same_bytes|is_fit|digit_of|flat_\w+|coded|no_record|no_entry|no_entries)\b"
PRINTS = r"fn (put_?\w*|field|\w+_field|\w+_line)\b"
OFFSETS = r"\b(2_048|4_096|4_352|4_416|4_480|4_544|4_545|8704|8736|4609|8768|8192)\b"
ROWS = r"\b(places|lens|gaps|owners): &(mut )?\[u32\]"


def lines(pattern, only=""):
    return [f"{f}:{i + 1}: {l.strip()}" for f in FILES if only in f for i, l in enumerate(LINES[f]) if re.search(pattern, l)]


def items(kind):
    """The structs or enums: file, line, name, body."""
    for f in FILES:
        text = "\n".join(LINES[f])
        for m in re.finditer(rf"^(?:pub )?{kind} (\w+)[^\n]*\{{\n(.*?)^\}}", text, re.M | re.S):
            yield f, text[: m.start()].count("\n") + 1, m[1], m[2]


def functions():
    """The functions: file, line, name, parameters, contract, body."""
    for f in FILES:
        text = "\n".join(LINES[f])
        for m in re.finditer(r"^( *)(?:pub )?(?:extern \"C\" )?fn (\w+)(?:<[^>]*>)?\((.*?)\)([^{]*?(?:\n\1    (?:requires|ensures)[^\n]*)*)\s*\{\n(.*?)^\1\}", text, re.M | re.S):
            yield f, text[: m.start()].count("\n") + 1, m[2], m[3], m[4], m[5]


def parameters(text):
    return [p.strip() for p in re.split(r",(?![^<\[(]*[>\])])", text) if p.strip()]


def point1():
    own = [f"{f}:{n}: enum {name}" for f, n, name, body in items("enum") if re.search(rf"^    {NOTHING}\b", body, re.M)]
    flags = [f"{f}:{n}: struct {name}" for f, n, name, body in items("struct") if re.search(r": (bool|io::Result<\(\)>)", body)]
    return own + flags + lines(CODED) + lines(NONE)


def point2():
    shapes = collections.defaultdict(list)
    for f, n, name, params, contract, body in functions():
        text = re.sub(r"//[^\n]*", "", re.sub(r"(requires|ensures)[^\n]*", "", params + " -> " + contract + body))
        text = re.sub(r'b?"[^"]*"|b\'[^\']*\'|\b\d[\d_]*\b', "0", text)
        names = {}
        text = re.sub(r"\b[A-Za-z_]\w*\b", lambda m: m[0] if m[0] in KEEP else names.setdefault(m[0], f"n{len(names)}"), text)
        if len(body.split()) > 6:
            shapes["".join(text.split())].append(f"{f}:{n}: fn {name}")
    return [p for group in shapes.values() if len(group) > 1 for p in group]


KEEP = set("if else while loop for in match return let mut as usize u8 u32 u64 i32 bool true false Some None Ok Err".split())


def point3():
    return lines(r"^\s*(while|loop)\b")


def point4():
    return lines(CONVERTS) + lines(PRINTS, "/small_")


def point5():
    facts = collections.defaultdict(set)
    groups = collections.defaultdict(set)
    for f, n, name, params, contract, body in functions():
        for clause in re.findall(r"requires(?: \w+)? \{ (.*) \}", contract):
            for fact in re.split(r" × ", clause):
                facts[fact.strip("() ")].add((f, n))
        names = [re.sub(r"mut ", "", p).split(":")[0] for p in parameters(params) if p != "self"]
        for i in range(len(names)):
            for j in range(i + 2, len(names) + 1):
                groups[tuple(names[i:j])].add((f, n))
    # a group counts where no longer one stands in the same functions
    whole = {g: at for g, at in groups.items() if len(at) > 2 and not any(len(h) > len(g) and any(h[k : k + len(g)] == g for k in range(len(h))) and at == groups[h] for h in groups)}
    found = [f"{min(at)[0]}:{min(at)[1]}: fact in {len(at)} contracts: {fact}" for fact, at in facts.items() if len(at) > 2]
    return found + [f"{min(at)[0]}:{min(at)[1]}: parameters of {len(at)} functions: {', '.join(g)}" for g, at in whole.items()]


def point6():
    return lines(OFFSETS) + lines(ROWS)


def point7():
    return lines(r"\b(match (st\.)?due\b|\.fill\b|fill ==|axis ==|if key ==|match key\b|asked ==)")


def point8():
    found = []
    for f in sorted(glob.glob("crates/*/proofs/*/Answers.antt")):
        text = open(f, encoding="utf-8").read()
        answers = re.findall(r"^\S+(?: \w+)? = (.*)$", text, re.M)
        if answers and all(re.match(r"search\b", a) for a in answers):
            found.append(f"{f}: {len(answers)} answers by search alone")
    return found


POINTS = {str(k): globals()[f"point{k}"] for k in range(1, 9)}

if __name__ == "__main__":
    for k in sys.argv[1:]:
        print("\n".join(POINTS[k]()))
    for k in sys.argv[1:] or POINTS:
        print(f"point {k}: {len(POINTS[k]())} places")
