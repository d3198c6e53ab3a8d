#!/usr/bin/env python3
"""Counts the places in the sources that are written in an older form of the language.

    tools/count_places.py [-v] [DIRECTORY]

For each pattern the number of places is printed, with -v each place too. The patterns are searched in every file
crates/*/src/*.rt below DIRECTORY (the repository by default). docs/DESIGN-PASS.md says what the counts were, what became of
each place, and which places were found by reading and not by a pattern.
"""
import pathlib
import re
import sys

# Point, what is counted, and the pattern. A pattern may go over line ends.
PATTERNS = [
    (1, "a refusal handed on by hand", r"Err\((\w+)\) => (?:return )?Err\(\1\)"),
    (1, "another refusal put in its place by hand", r"Err\(_\) => (?:return )?Err\("),
    (1, "an answer handed on by hand", r"Ok\((\w+)\) => Ok\([\w:(]*\1\)|Ok\(\(\)\) => (?:\{\}|Ok\(\(\)\))"),
    (1, "none handed on by hand", r"None => None|else \{\s*return None;\s*\}|if [^{;]*\{\s*return None;\s*\}|_ => None,\n    \}\n\}"),
    (1, "an enum of the shape of Option or Result", r"enum (?:Answer|Shown|Accepted)\b"),
    (1, "a number for a kind", r"kind: u8|-> u8|Only\(u8\)|Option<u8>|(?:kind\(\)|kind) [!=]= \d"),
    (1, "a number for a refusal or an action", r"\.number\(\) == \d|\.place\(\) (?:<|>=) \d"),
    (3, "a loop over a range of indices", r"for \w+ in 0\.\.[^{]*\{"),
    (3, "a loop with an index beside its items", r"for \(\w+, [^{]*\.enumerate\(\) \{"),
    (3, "a loop for what a method answers", r"for \w+ in [^{]*\{\s*if [^{]*\{\s*(?:return (?:true|false)|\w+ \+= 1)"),
    (3, "a loop that writes one value everywhere", r"iter_mut\(\) \{\s*\*\w+ ="),
    (3, "a while loop", r"(?m)^\s*while [^{]*\{"),
    (4, "numbers compared by their inside", r"\.0 [!=]= \w+(?:\.\w+)*\.0"),
    (4, "a struct copied field by field", r"(?:status|partner|version): card\.\w+|Place \{ \.\.self"),
    (4, "a conversion of its own", r"fn (?:from_letter|letter|place|new|number|kind_named|is_text|state_name|name)\((?:self|letter|hundredths|number|text|state|kind)\b"),
    (5, "the lent tables as parameters", r"master_registers: (?:&mut \[R\]|&\[R\]|usize)"),
    (5, "the counts of a hub as parameters", r"commands: u32,\s*(?:pub )?(?:pub\(crate\) )?kills: u32,\s*(?:pub )?(?:pub\(crate\) )?cards: u32"),
    (5, "a register's number beside its table", r"number: usize,\s*(?:version: u32,\s*)?registers: &\[R\]"),
    (6, "a buffer and a place in it", r"out: &mut \[u8\],\s*(?:at|place): usize"),
    (6, "a buffer with a count beside it", r"moved: usize,"),
    (7, "a text measured and then written", r"&mut \[\]\)"),
]


def places(sources, pattern):
    for path, text in sources:
        for found in re.finditer(pattern, text):
            line = text.count("\n", 0, found.start()) + 1
            yield path, line, found.group(0).split("\n")[0].strip()


def main():
    words = [word for word in sys.argv[1:] if word != "-v"]
    top = pathlib.Path(words[0]) if words else pathlib.Path(__file__).resolve().parent.parent
    files = sorted(top.glob("crates/*/src/*.rt"))
    sources = [(path.relative_to(top), path.read_text(encoding="utf-8")) for path in files]
    for point, what, pattern in PATTERNS:
        found = list(places(sources, pattern))
        print(f"{point}  {len(found):3}  {what}")
        if "-v" in sys.argv:
            for path, line, text in found:
                print(f"          {path}:{line}: {text}")


main()
