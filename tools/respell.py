#!/usr/bin/env python3
"""Spells this repository's own definitions and lemmas as today's Rattle does: words in snake case, so `mostPlaces` is `most_places` and `none-fault` is `none_fault`.

usage: tools/respell.py [--list]      run once, after port.py, at the top of the repository

It turns the names that an .antt file of crates/ declares, wherever they stand: in .antt files, in clauses and ghost items of .rt files, in must-fail edits, and in
code spans of pages. A name that a file takes from a library stays there. Functions of src/, exported C names, strings and outputs keep their names: none of them is
spelled with capitals inside or with hyphens. --list prints the names with their new spelling, and changes nothing.
"""

import collections
import pathlib
import re
import sys

ROOT = pathlib.Path(__file__).resolve().parent.parent
WORD = r'[^\s(){}.;,@"«»]+'
MARKS = r"(?:abbrev |unfoldable |irreducible |instance |pub |record |data |mutual )*"
DECLARED = (
    re.compile(rf"(?m)^[ ]*(?:where |let |in )?{MARKS}({WORD})(?: \{{[^{{}}\n]*\}}| \([^()\n]*\))* :(?= |$)"),
    re.compile(rf"(?m)^[ ]*(?:where |let |in )?{MARKS}({WORD})(?: {WORD})* =(?= |$)"),
    re.compile(rf"\blet ({WORD}) (?::|=) "),
    re.compile(rf"(?m)^[ ]*module ({WORD}) "),
)
COMMENT = re.compile(r"(?<![^\s(){}.;,@])--[^\n]*|//[^\n]*")
STRING = re.compile(r'"(?:[^"\\\n]|\\.)*"')
USE = re.compile(r"(?m)^\s*(?:pub )?(?:ghost )?use ([^\s;{]+?)\.?\{([^}]*)\}")
SPAN = re.compile(r"`[^`\n]+`")
# Names that would meet another in some file: the lemma, the field or the example gives way, and the definition keeps its name.
GIVE_WAY = {
    "all-signed": "all_signed_is",
    "all_in": "all_in_is",
    "closest-under": "closest_under_is",
    "highest-first": "highest_first_is",
    "in-set": "is_in_set",
    "line-length": "line_length_is",
    "lowest-first": "lowest_first_is",
    "odd_part": "odd_part_is",
    "twos-of": "twos_of_is",
    "unit-of": "unit_of_is",
    "width-of": "width_of_is",
    "window-of": "window_of_is",
    "wmof-under": "wmof_under_is",
}


def crates():
    return sorted(p for p in (ROOT / "crates").iterdir() if (p / "src").is_dir())


def files(*endings):
    for crate in crates():
        for p in sorted(crate.rglob("*")):
            if p.suffix in endings and "out" not in p.relative_to(crate).parts[:1]:
                yield p


def spelled(name):
    words = re.sub(r"(?<=[a-z0-9])[A-Z]", lambda m: "_" + m[0].lower(), name) if not re.match(r"[A-Z]", name) else name
    return re.sub(r"(?<=[^\W_])-(?=[^\W_])", "_", words)


def declared():
    found = set()
    for p in files(".antt"):
        text = COMMENT.sub("", p.read_text())
        for how in DECLARED:
            found.update(how.findall(text))
    return found


def from_libraries(text, ours):
    kept = set()
    for path, items in USE.findall(text):
        steps = path.split(".")
        if steps[0] == "Rattle" and len(steps) > 1 and steps[1] in ours or steps[0] == "package":
            continue
        kept.update(re.findall(WORD, items))
    return kept


def turn(text, table, kept):
    def word(m):
        return m[0] if m[0] in kept else table.get(m[0], m[0])

    def prose(part):
        bare = {k: v for k, v in table.items() if "-" not in k and k not in kept}
        return re.sub(rf"[\w'?]+", lambda m: bare.get(m[0], m[0]), SPAN.sub(lambda m: re.sub(r"[\w'?-]+", word, m[0]), part))

    out, at = [], 0
    for m in re.finditer(rf"{STRING.pattern}|{COMMENT.pattern}", text):
        out += [re.sub(WORD, word, text[at : m.start()]), m[0] if m[0][0] == '"' else prose(m[0])]
        at = m.end()
    return "".join(out + [re.sub(WORD, word, text[at:])])


def main(argv):
    ours = {p.name for p in crates()}
    names = declared()
    table = {n: GIVE_WAY.get(n, spelled(n)) for n in sorted(names) if GIVE_WAY.get(n, spelled(n)) != n}
    meets = collections.defaultdict(set)
    for old, new in table.items():
        meets[new].add(old)
    for new, olds in meets.items():
        if len(olds) > 1 or new in names and new not in table:
            print(f"meet: {' '.join(sorted(olds | (names & {new})))}", file=sys.stderr)
    if "--list" in argv:
        print("\n".join(f"{o}\t{n}" for o, n in table.items()))
        return 0
    changed = 0
    for p in files(".antt", ".rt", ".edit"):
        text = p.read_text()
        kept = from_libraries(text, ours)
        new = turn(text, table, kept)
        if new != text:
            p.write_text(new)
            changed += 1
    for p in [*ROOT.glob("*.md"), *(ROOT / "docs").rglob("*.md")]:
        text = p.read_text()
        new = SPAN.sub(lambda m: re.sub(r"[\w'?-]+", lambda w: table.get(w[0], w[0]), m[0]), text)
        if new != text:
            p.write_text(new)
            changed += 1
    print(f"respell: {len(table)} names, {changed} files")
    return 0


if __name__ == "__main__":
    sys.exit(main(sys.argv[1:]))
