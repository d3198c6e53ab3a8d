#!/usr/bin/env python3
"""Spells the repository's own words of specs/ and proofs/ in snake case.

usage: python3 tools/snake_case.py [--dry]      at the top of the repository, once, after the kit's port.py

A word of the logic that was declared here with dashes, as `is-used`, becomes `is_used`: definitions, lemmas, fields, constructors,
parameters and local names, in .antt files, in the ghost parts of .rt files, and in the texts of must-fail edits. Names of the
kit's library, names that Rattle makes for goals, comments, strings and chars stay. Words that would fall together are printed,
and nothing is written then.
"""
import os
import re
import sys

WORD = r"[A-Za-z_α-ωΑ-Ω][\w']*"
KEBAB = re.compile(r"(?<![\w'◌.«-])(" + WORD + r"(?:-[\w']+)+)(?![\w'◌-])")
ANY = re.compile(r"(?<![\w'◌«-])(" + WORD + r"(?:-[\w']+)+)(?![\w'◌-])")
# comments, strings and chars, which are kept as they are
KEEP_ANTT = re.compile(r'(--(?=\s|$)[^\n]*|"(?:\\.|[^"\\])*")')
KEEP_RT = re.compile(r"(//[^\n]*|b?\"(?:\\.|[^\"\\])*\"|b?'(?:\\.|[^'\\])')")
# declared here, though some module of the kit has the same word, which nothing here cites; and names bound by a pattern alone
MORE = set("""at-end below-zero first-none fresh-rows some-none step-at b-is bv-is m-is mv-is card-steps in-answers in-calls in-phase
is-from is-to low-from low-to made-written maker-figures maker-written no-backup no-master search-of within-xs within-ys""".split())


# in camel case until now; the Rust functions `fault_text` and `mean_of` and a local `after_comma` have the plain spellings
CAMEL = {"lineText": "line_text", "figuresText": "figures_text", "faultText": "text_of_fault", "afterComma": "figure_after_comma", "meanOf": "mean_of_sum"}


def texts(root):
    for folder, dirs, files in os.walk(os.path.join(root, "crates")):
        dirs[:] = sorted(d for d in dirs if d not in ("out", "data"))
        for f in sorted(files):
            if f.endswith((".rt", ".antt", ".edit")):
                yield os.path.join(folder, f)


def read(p):
    with open(p, encoding="utf-8") as f:
        return f.read()


def code_of(p, t):
    keep = KEEP_RT if p.endswith(".rt") else KEEP_ANTT
    return keep.sub(lambda m: " " * len(m.group(0)), t)


def declared(root):
    """Words with a dash that are declared in the repository: at the head of a line, bound in brackets, by a let or by a lambda."""
    found, goals = set(), set()
    for p in texts(root):
        if not p.endswith(".antt"):
            continue
        t = code_of(p, read(p))
        goals |= set(re.findall(r"goal\.(" + WORD + r"(?:-[\w']+)+)", t))
        for m in re.finditer(r"(?m)^\s*(?:(?:abbrev|unfoldable|pub|ruleset|record|data)\s+)*(" + WORD + r"(?:-[\w']+)+)\s*:(?=\s)", t):
            found.add(m.group(1))
        for m in re.finditer(r"[({]\s*((?:[\w'-]+\s+)+):\s", t):
            found |= {w for w in m.group(1).split() if "-" in w}
        for m in re.finditer(r"\blet\s+([\w'-]+)", t):
            if "-" in m.group(1):
                found.add(m.group(1))
        for m in re.finditer(r"λ\s*((?:[\w'-]+\s+)*[\w'-]+)\.(?=\s)", t):
            found |= {w for w in m.group(1).split() if "-" in w}
    return {w for w in found if re.fullmatch(WORD + r"(?:-[\w']+)+", w)} - goals


def library():
    """Words with a dash that the kit's library declares."""
    kit = os.environ.get("RATTLE_KIT", "/opt/rattle")
    found = set()
    for top in ("rattle", "toolchain"):
        for folder, dirs, files in os.walk(os.path.join(kit, top)):
            for f in files:
                if f.endswith(".antt"):
                    t = read(os.path.join(folder, f))
                    found |= set(re.findall(r"(?m)^\s*(?:(?:abbrev|unfoldable|pub|ruleset)\s+)*(" + WORD + r"(?:-[\w']+)+)\s*:(?=\s)", t))
    return found


def main(argv):
    root = os.getcwd()
    own = declared(root)
    lib = library()
    both = sorted(own & lib)
    rename = {w: w.replace("-", "_") for w in (own - lib) | MORE}
    plain = set()
    for p in texts(root):
        if p.endswith(".antt"):
            t = code_of(p, read(p))
            for m in re.finditer(r"(?m)^\s*(?:(?:abbrev|unfoldable|pub|ruleset)\s+)*([A-Za-z][\w']*)\s*:(?=\s)", t):
                plain.add(m.group(1))
    together = sorted(w for w, s in rename.items() if s in plain)
    print("own words: %d; declared by the kit too, and left: %s" % (len(rename), " ".join(both)))
    print("fall together with a word that is declared here: " + " ".join(together))
    left = {}
    for p in texts(root):
        t = read(p)
        keep = KEEP_RT if p.endswith(".rt") else KEEP_ANTT

        def change(part):
            part = re.sub(r"\b(%s)\b" % "|".join(CAMEL), lambda m: CAMEL[m.group(1)], part)
            return ANY.sub(lambda m: rename.get(m.group(1), m.group(1)), part)

        if p.endswith(".edit"):
            lines = t.split("\n")
            new = "\n".join(l if l.startswith("file:") else "".join(x if i % 2 else change(x) for i, x in enumerate(KEEP_RT.split(l))) for l in lines)
        else:
            new = "".join(x if i % 2 else change(x) for i, x in enumerate(keep.split(t)))
        for m in ANY.finditer(code_of(p, new)):
            left.setdefault(m.group(1), p)
        if new != t and "--dry" not in argv:
            with open(p, "w", encoding="utf-8") as f:
                f.write(new)
    if "--dry" in argv:
        for w in sorted(left):
            print("left: %s (%s)" % (w, os.path.relpath(left[w], root)))
    return 0


if __name__ == "__main__":
    raise SystemExit(main(sys.argv[1:]))
