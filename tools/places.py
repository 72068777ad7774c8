#!/usr/bin/env python3
"""Counts the places of docs/DESIGN-PASS.md in the sources of a checkout.

    python3 tools/places.py [FOLDER] [--list POINT]

Every count goes by the text of crates/*/src and crates/*/proofs as git lists it; --list prints each place of one row.
"""
import collections
import os
import re
import subprocess
import sys

TABLES = ("segments", "views", "runs", "borrows", "ids", "pool")


def sources(folder):
    names = subprocess.check_output(["git", "ls-files", "crates"], cwd=folder, text=True).split()
    for name in names:
        if name.endswith(".rt"):
            with open(os.path.join(folder, name), encoding="utf-8") as f:
                yield name, re.sub(r"//[^\n]*", "", f.read())


def functions(folder):
    """name of the file, name of the function, its parameters, its contract, its body"""
    for name, text in sources(folder):
        for m in re.finditer(r"^( *)(?:pub )?(?:const )?fn (\w+)", text, re.M):
            end = text.find("\n" + m.group(1) + "}\n", m.start())
            whole = text[m.start():end]
            at = whole.find("\n" + m.group(1) + "{")
            if at < 0:
                continue
            head, body = whole[:at], whole[at:]
            cut = re.search(r"\n\s*(requires|ensures)", head)
            yield name, m.group(2), head[:cut.start()] if cut else head, head[cut.start():] if cut else "", body


def enums(folder):
    for name, text in sources(folder):
        for m in re.finditer(r"^(?:pub )?enum (\w+) \{\n(.*?)^\}", text, re.M | re.S):
            yield name, m.group(1), [v.strip().rstrip(",") for v in m.group(2).split("\n") if v.strip()]


def shaped(folder):
    """1: an enum of two variants with a value in one, or one with a variant for nothing or for a refusal"""
    for name, enum, variants in enums(folder):
        with_value = [v for v in variants if "(" in v]
        nothing = [v for v in variants if v in ("None", "Nothing")]
        if (len(variants) == 2 and with_value) or nothing or any(v.startswith("Refused(") for v in variants):
            yield name, enum


def flags(folder):
    """1: a struct with a bool beside other fields; a number for a kind or a refusal, by the names that they have here"""
    for name, text in sources(folder):
        for m in re.finditer(r"^(?:pub )?struct (\w+)[^{;]*\{\n(.*?)^\}", text, re.M | re.S):
            for field in re.findall(r"(\w+): bool", m.group(2)):
                yield name, m.group(1) + "." + field
            for field in re.findall(r"\b(number|code|kind): (?:u64|usize)", m.group(2)):
                yield name, m.group(1) + "." + field
    for name, fn, head, _, _ in functions(folder):
        for p in re.findall(r"\b(code|kind|flag|number): (?:u64|usize|u8)", head):
            yield name, fn + "(" + p + ")"


KEEP = set("fn pub let mut if else while for in match return as true false usize u64 u8 bool i64 Some None Ok Err Option Result N "
           "len const".split())


def twins(folder, calls=False):
    """2: functions of 40 words and signs or more that are the same but for names and numbers, a line for each group; with `calls`
    only those that call the same functions as well, so that no more than types, sizes and constants differ"""
    groups = collections.defaultdict(list)
    for name, fn, head, _, body in functions(folder):
        text = re.sub(r"\b\d+\b", "N", head + body)
        words = re.findall(r"\w+|[^\w\s]", text)
        seen, out = {}, []
        for at, w in enumerate(words):
            called = calls and words[at + 1:at + 2] == ["("] and w != fn and w[:1].islower() and 0 < at
            same = w in KEEP or called
            out.append(seen.setdefault(w, "v%d" % len(seen)) if re.match("[A-Za-z_]", w) and not same else w)
        if 40 <= len(words):
            groups[" ".join(out)].append(name + "::" + fn)
    for members in groups.values():
        if 1 < len(members):
            yield members[0], " = ".join(members[1:])


def loops(folder):
    """3: loops that count by hand: every `while` but `while let`"""
    for name, text in sources(folder):
        for m in re.finditer(r"^\s*(?:'\w+: )?(while (?!let\b)[^{\n]*)\{", text, re.M):
            yield name, m.group(1).strip()


def by_hand(folder):
    """4: functions that compare, order, copy or convert, by their names; matches that only ask whether a value is there"""
    for name, fn, _, _, body in functions(folder):
        if re.match(r"(same_|order_|is_same|compare$|or_else$|is_none$|put_words$|put_bytes$|lesser$)", fn):
            yield name, fn
        elif re.search(r"match [^{]*\{\s*(None|\w+::\w+) => (true|false),\s*(Some|\w+::\w+)\([^)]*\) => (true|false),\s*\}", body):
            yield name, fn + " (a match that asks whether)"


def together(folder):
    """5: functions with three or more of the six tables as parameters of their own"""
    for name, fn, head, _, _ in functions(folder):
        got = [p for p in re.findall(r"(\w+): &(?:mut )?\[u(?:64|8)\]", head)]
        count = sum(1 for p in got if any(p == t or p.endswith("_" + t) for t in TABLES))
        if 3 <= count:
            yield name, fn


def facts(folder):
    """5: a fact that three or more contracts of a crate ask for, in the same words"""
    count = collections.defaultdict(set)
    for name, fn, _, contract, _ in functions(folder):
        for fact in re.findall(r"requires \w* ?\{(.*?)\}\n", contract + "\n"):
            count[(name.split("/")[1], fact.strip())].add(fn)
    for (crate, fact), fns in count.items():
        if 3 <= len(fns):
            yield crate, "%d: %s" % (len(fns), fact[:100])


def lengths(folder):
    """6: a slice of rows with the number of its rows beside it"""
    for name, fn, head, _, _ in functions(folder):
        for m in re.finditer(r"(\w+): &(?:mut )?\[u64\],\s*(n|np|count|m): usize", head):
            yield name, "%s(%s, %s)" % (fn, m.group(1), m.group(2))


def switches(folder):
    """7: functions that are handed over, in a table or by a number"""
    for name, text in sources(folder):
        for m in re.finditer(r"\bfn\(|\bdyn |: fn\b|\bstep: (?:u8|u64|usize)\b", text):
            yield name, m.group(0)


def answers(folder):
    """8: answers in proof files"""
    names = subprocess.check_output(["git", "ls-files", "crates"], cwd=folder, text=True).split()
    for name in names:
        if name.endswith("/Answers.antt") or name.endswith("/Invariants.antt"):
            with open(os.path.join(folder, name), encoding="utf-8") as f:
                for m in re.finditer(r"^(?:abbrev )?(?:pub )?(\S+) : goal\.", f.read(), re.M):
                    yield name, m.group(1)


ROWS = [
    ("1a", "own enums of the shape of Option or Result", shaped),
    ("1b", "flags beside values, numbers for kinds and refusals", flags),
    ("2a", "groups of functions of one shape", twins),
    ("2b", "of these, groups that call the same functions: twins", lambda folder: twins(folder, True)),
    ("3", "while loops", loops),
    ("4", "comparing, ordering, copying, asking by hand", by_hand),
    ("5a", "functions with three or more tables as parameters", together),
    ("5b", "facts in three or more contracts of a crate", facts),
    ("6", "slices with a length beside them", lengths),
    ("7", "function tables and step numbers", switches),
    ("8", "answers and invariants in proof files", answers),
]


def main():
    words = sys.argv[1:]
    point = None
    if "--list" in words:
        at = words.index("--list")
        point = words[at + 1]
        del words[at:at + 2]
    folder = words[0] if words else "."
    for key, what, find in ROWS:
        places = list(find(folder))
        if point is None:
            print("%-3s %5d  %s" % (key, len(places), what))
        elif point == key:
            for place in places:
                print("  ".join(place))


main()
