#!/usr/bin/env python3
"""Brings this repository's own definitions and lemmas to the spelling of today's Rattle, once, behind port.py.

usage: tools/respell-names.py [--say]      at the top of the repository, in the tree that port.py left

Definitions, lemmas, constructors, labels and local names are in snake case; types, facts and modules keep their capitals. In the name of a
lemma a dash stays where it joins the names of two definitions (`length-drop`); before a plain word it becomes `_`. Names of Rust's source,
of the kit and of what Rattle makes stay as they are, and so do strings and words of comments that are no names. Where two names would fall
together, the lemma gets `_lem`. With --say nothing is written, and each new spelling is printed.
"""

import collections
import glob
import os
import re
import sys

# A name; parts joined by dashes.
NAME = re.compile(r"[^\W\d][\w'′·]*(?:-[\w'′·*+≤<∷]+)*")
# A string, a comment to the line's end, or a name with the path before it.
TOKEN = re.compile(r'"(?:[^"\\]|\\.)*"|--(?=\s|$).*|(?<![\w\s({\[,;.=])-[\w\'′·*+≤<∷-]+|(?<=[\s({,])-[^\W\d][\w\'′·]*(?:-[\w\'′·*+≤<∷]+)*|(?:[^\W\d][\w\'′·]*(?:-[\w\'′·*+≤<∷]+)*\.)*(?<![\w\)\]])\.?[^\W\d][\w\'′·]*(?:-[\w\'′·*+≤<∷]+)*|\.[^\W\d][\w\'′·]*(?:-[\w\'′·*+≤<∷]+)*')
USE = re.compile(r"^(?:ghost )?(?:pub )?use ([\w.·'-]+?)(?:\.\{(.*)\}| as ([\w'-]+))?;?\s*$")
# A signature; before the name may stand what kind of declaration it is.
SIGNATURE = re.compile(r"^\s*(?:(?:abbrev|unfoldable|pub|private|opaque|instance) )*((?:[^\W\d][\w'′·-]*)(?: [^\W\d][\w'′·-]*)*) : ")
# Words of std that lemmas are named after.
WORDS = set("length take drop append get_or set map reverse replicate sum min max not nth concat filter foldr foldl".split())
# Definitions that are plain words in the name of a lemma.
PLAIN = set("is on no at by in to of same own one two all from up good short name line word both just pair some none here there old new page size font".split())
# A control's or a drawing's letters keep their capital.
LETTERS = re.compile(r"^(?:x[A-Z]|D[A-Za-z]?|[A-Z])$")


def snake(part):
    """One part of a name without dashes."""
    if part[:1].isupper() or LETTERS.match(part):
        return part
    return re.sub(r"(?<=[a-z0-9])([A-Z]+)(?=[A-Z][a-z]|[^A-Za-z]|$)|(?<=[a-z0-9])([A-Z])(?=[a-z])", lambda m: "_" + m.group(0).lower(), part)


def of_type(text):
    """Whether a declaration's type is a type itself: then the name is a fact's or a type's."""
    return re.search(r"(?:→ |^)Type \d$", text.strip()) is not None


class Repository:
    def __init__(self, top):
        self.top = top
        self.antt = sorted(p for k in ("specs", "proofs") for p in glob.glob(f"{top}/crates/*/{k}/**/*.antt", recursive=True))
        self.rt = sorted(glob.glob(f"{top}/crates/*/src/**/*.rt", recursive=True))
        self.text = {p: open(p, encoding="utf-8").read() for p in self.antt + self.rt}
        self.modules = {self.module(p): p for p in self.antt}
        self.labels, self.definitions, self.declared, self.laws = set(), set(WORDS), set(), set()
        for p in self.antt:
            self.declarations(p)
        # a constructor that port.py gave the name of the rule beside it
        self.taken = {"one_byte": "text_byte"}

    def module(self, path):
        parts = os.path.relpath(path, self.top)[:-len(".antt")].split("/")[1:]
        return "Rattle." + ".".join(parts[:-1] if parts[-1] == "Lib" else parts)

    def declarations(self, path):
        """The names that a file declares: labels of records, definitions (in specs/), and all."""
        record = None  # how far in the record stands whose labels these lines are
        for line in self.text[path].split("\n"):
            indent = len(line) - len(line.lstrip())
            if re.match(r"^\s*(?:pub )?record ", line):
                record = indent
                continue
            if line.strip() and record is not None and indent <= record:
                record = None
            m = SIGNATURE.match(line)
            if m:
                names = m.group(1).split(" ")
                if record is not None:
                    self.labels.update(names)
                else:
                    self.declared.update(names)
                    if "/proofs/" in path:
                        self.laws.update(names)
                    if "/specs/" in path:
                        self.definitions.update(snake(n) for n in names if "-" not in n)
            m = re.match(r"^\s*(?:pub )?ruleset ([\w'-]+) =", line)
            if m:
                self.declared.add(m.group(1))

    def spelled(self, name):
        """A name of the repository's own as it is spelled today."""
        parts = [snake(p) for p in name.split("-")]
        out = parts[0]
        for a, b in zip(parts, parts[1:]):
            joins = all(w in self.definitions and w not in PLAIN for w in (a, b))
            out += ("-" if joins else "_") + b
        return self.taken.get(name, out)

    def label(self, name):
        return "_".join(snake(p) for p in name.split("-"))

    def bound(self, text):
        """What a file imports from elsewhere than the repository's own files, and its names for own modules."""
        kit, own = set(), set()
        for line in text.split("\n"):
            m = USE.match(line)
            if not m:
                continue
            path, names, alias = m.groups()
            mine = path in self.modules
            if alias:
                if mine:
                    own.add(alias)
                else:
                    kit.add(alias)
            elif names is not None and not mine:
                for n in names.split(","):
                    kit.add(n.split(" as ")[-1].strip())
                    kit.add(n.split(" as ")[0].strip())
            elif names is None:
                (own if mine else kit).add(path.split(".")[-1])
        return kit, own

    def turned(self, path):
        text = self.text[path]
        kit, own = self.bound(text)
        rust = path.endswith(".rt")

        def changes(name):
            if "·" in name:  # a symbol of the compiler's
                return False
            return "-" in name or (name in self.taken and not rust) or (name[:1].islower() and snake(name) != name)

        def named(name):
            return self.spelled(name) if changes(name) and name not in kit and (name in self.declared or not rust) else name

        def one(token):
            *front, last = token.split(".")
            if not front:
                return named(last) if last not in self.labels or last in self.declared else self.label(last)
            path_ = ".".join(front)
            if path_ in self.modules or (len(front) == 1 and front[0] in own):
                return path_ + "." + (self.spelled(last) if changes(last) else last)
            head = [named(front[0])] if front[0] else [""]
            rest = [self.label(f) if f in self.labels else f for f in front[1:] + [last]]
            return ".".join(head + rest)

        def replaced(m):
            t = m.group(0)
            if t.startswith('"') or (t.startswith("-") and not t.startswith("--")):
                return t
            if t.startswith("--"):
                return re.sub(r"`([^`]*)`", lambda q: "`" + NAME.sub(lambda w: self.spelled(w.group(0)) if w.group(0) in self.declared and changes(w.group(0)) else w.group(0), q.group(1)) + "`", t)
            return one(t)

        out = []
        for line in text.split("\n"):
            m = USE.match(line)
            if m:
                module, names, alias = m.groups()
                if names is not None and module in self.modules:
                    new = ", ".join(" as ".join(self.spelled(w.strip()) if changes(w.strip()) else w.strip() for w in n.split(" as ")) for n in names.split(","))
                    line = line.replace("{" + names + "}", "{" + new + "}")
                out.append(line)
            elif rust:
                code, slash, comment = line.partition("//")
                out.append(TOKEN.sub(lambda m: m.group(0) if m.group(0).startswith("--") else replaced(m), code) + slash + comment)
            else:
                out.append(TOKEN.sub(replaced, line))
        return "\n".join(out)

    def falls_together(self):
        """Names of one file that would be one name: the one with a dash gets `_lem`, for all files."""
        again = True
        while again:
            again = False
            for p in self.antt:
                kit, _ = self.bound(self.text[p])
                seen = collections.defaultdict(set)
                for m in TOKEN.finditer(re.sub(r"--(?=\s|$).*", "", self.text[p])):
                    t = m.group(0)
                    if t.startswith(('"', "-", ".")) or "." in t or "·" in t:
                        continue
                    seen[t if t in kit else self.label(t) if t in self.labels and t not in self.declared else self.spelled(t) if ("-" in t or t in self.taken or snake(t) != t) else t].add(t)
                for new, olds in seen.items():
                    if len(olds) < 2:
                        continue
                    dashed = [o for o in sorted(olds) if ("-" in o or "_" in o and o in self.laws) and o not in self.taken and o not in kit]
                    if dashed:
                        self.taken[dashed[0]] = new + "_lem"
                        print(f"together in {os.path.relpath(p, self.top)}: {sorted(olds)}: {dashed[0]} is now {new}_lem")
                        again = True
                    elif not any(o in self.taken for o in olds):
                        print(f"look: in {os.path.relpath(p, self.top)} {sorted(olds)} are now {new}")
                        self.taken[sorted(olds)[0]] = self.spelled(sorted(olds)[0])


def main():
    if sys.argv[1:] not in ([], ["--say"]):
        sys.exit(__doc__)
    top = os.getcwd()
    it = Repository(top)
    it.falls_together()
    if "--say" in sys.argv:
        for n in sorted(it.declared | it.labels):
            new = it.label(n) if n in it.labels and n not in it.declared else it.spelled(n)
            if new != n:
                print(n, new)
        return
    turned = {p: it.turned(p) for p in it.antt + it.rt}
    for p, t in turned.items():
        if t != it.text[p]:
            open(p, "w", encoding="utf-8").write(t)


main()
