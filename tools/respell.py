#!/usr/bin/env python3
"""Spells the names that this repository's specs/ and proofs/ declare as today's Rattle does: words in snake case.

usage: tools/respell.py [--dry] [TOP]

Run once, after the kit's port.py. A name that begins with a small letter and has a capital or a dash within gets
underscores: partOf becomes part_of, fits-true becomes fits_true. Types and modules keep their capitals. Names that Rattle
makes keep theirs (invariant-loop, decreases-loop ..), and so does what stands in strings and, in comments, outside
backticks. A name whose new spelling is taken is listed in TAKEN with another one.
"""
import os
import re
import sys

NAME = r'[^\s(){}.;,@"«»]+'
TOKEN = re.compile(rf"(?<![^\s(){{}}.;,@\"«»]){NAME}")
HEAD = re.compile(r"^ *(?:(?:abbrev|unfoldable|pub) )*(?!use |mod |data |record |open |unfolding |let |in |module )(" + NAME + r")(?: \{[^{}\n]*\})* :(?= |$)")
RULES = re.compile(r"^ *(?:pub )?ruleset (" + NAME + r") =")
ALIAS = re.compile(r" as (" + NAME + r")")
MADE = re.compile(r"(invariant|decreases)-|Inv-|μ-")
# Lemmas whose new spelling a definition has: they get `_lem`. The first are found so; these had their new spelling already.
LEMMAS = {n: n + "_lem" for n in "apart_of name_in run_in tree_placed last_up room_of".split()}
LEMMAS_IN = {"crates/insert/proofs/Entering.antt": ["no_room"], "crates/manifest_rows/proofs/Overs.antt": ["bound_by"]}
# New spellings that a definition of another folder has.
TAKEN = {n: n.replace("-", "_") + "_lem" for n in "own-row ids-of view-row run-row last-at bound-at".split()}


def snake(name):
    words = re.sub(r"(?<=[a-z0-9'])[A-Z]", lambda m: "_" + m[0].lower(), name)
    return re.sub(r"(?<=[\w'₀-₉])-(?=[\w'ℕℤ≡≤<+])", "_", words)


def files(top, *ends):
    for at, folders, names in os.walk(os.path.join(top, "crates")):
        folders[:] = sorted(f for f in folders if f != "out")
        for name in sorted(names):
            if name.endswith(ends):
                yield os.path.join(at, name)


def declared(text):
    """The names that an antt text declares: definitions, lemmas, fields, constructors and what a use line calls otherwise."""
    for line in text.split("\n"):
        m = HEAD.match(line) or RULES.match(line)
        if m:
            yield m[1]
        if line.startswith("use "):
            yield from ALIAS.findall(line)


def to_turn(name):
    return name[:1].islower() and name[0].isascii() and not MADE.match(name) and snake(name) != name


def turned(text, names, comment):
    """The text with its names respelled; `comment` begins a comment, in which only what stands in backticks is turned."""

    def words(part):
        return TOKEN.sub(lambda m: names.get(m[0], m[0]), part)

    out = []
    for line in text.split("\n"):
        at = line.find(comment + " ") if not line.endswith(comment) else len(line) - len(comment)
        code, rest = (line, "") if at < 0 else (line[:at], line[at:])
        if code.count('"') % 2:
            code, rest = line, ""
        parts = re.split(r'("(?:[^"\\]|\\.)*")', code)
        code = "".join(p if p.startswith('"') else words(p) for p in parts)
        rest = re.sub(r"`[^`]*`", lambda m: re.sub(r"[^\s(){}.;,@\"«»`]+", lambda w: names.get(w[0], w[0]), m[0]), rest)
        out.append(code + rest)
    return "\n".join(out)


def main(argv):
    dry = "--dry" in argv
    argv = [a for a in argv if a != "--dry"]
    top = argv[0] if argv else "."
    texts = {p: open(p, encoding="utf-8").read() for p in files(top, ".antt", ".rt")}
    names = {"pathEnds": "path_ends"}
    for p, t in texts.items():
        if p.endswith(".antt"):
            for n in declared(t):
                if to_turn(n):
                    names[n] = TAKEN.get(n) or snake(n)
    # two names that would fall together, and a new name that a file has already
    by_new = {}
    for old, new in names.items():
        by_new.setdefault(new, []).append(old)
    for new, olds in list(by_new.items()):
        if len(olds) > 1:
            for old in [o for o in olds if "-" in o][: len(olds) - 1]:
                names[old] = new + "_lem"
                by_new[new].remove(old)
                by_new[new + "_lem"] = [old]
    bad = 0
    for new, olds in sorted(by_new.items()):
        if len(olds) > 1:
            print("falls together:", new, olds)
            bad += 1
    for p, t in texts.items():
        has = set(TOKEN.findall(t)) | set(re.findall(r"\w+", t) if p.endswith(".rt") else [])
        for new, olds in by_new.items():
            if new in has:
                mine = [o for o in olds if o in has]
                if mine:
                    print("meets:", p, new, mine)
                    bad += 1
    if dry:
        print(len(names), "names,", bad, "to look at")
        return 0
    for p, t in texts.items():
        own = dict(names)
        if p.endswith(".antt"):
            own |= LEMMAS
            own |= {n: n + "_lem" for q, ns in LEMMAS_IN.items() if p.endswith(q) for n in ns}
        new = turned(t, own, "--" if p.endswith(".antt") else "//")
        if new != t:
            with open(p, "w", encoding="utf-8") as f:
                f.write(new)
    print(len(names), "names respelled")
    return 0


if __name__ == "__main__":
    raise SystemExit(main(sys.argv[1:]))
