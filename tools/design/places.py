#!/usr/bin/env python3
"""Counts, in crates/*/src, the places of the design pass by its points, and with -v lists them. docs/DESIGN-PASS.md says what each count means."""
import glob
import os
import re
import sys
from collections import Counter, defaultdict

TOP = os.path.dirname(os.path.dirname(os.path.dirname(os.path.abspath(__file__))))
WORD = re.compile(r"[A-Za-z_]\w*|\d[\d_]*|\S")
KEYWORDS = set("fn let mut if else while for in match return pub impl struct enum use as true false self Self loop break continue move".split())


def bare(line):
    return line.split("//")[0].rstrip()


def files():
    for path in sorted(glob.glob(os.path.join(TOP, "crates/*/src/*.rt"))):
        yield os.path.relpath(path, TOP), [bare(line) for line in open(path)]


def functions():
    """Each function as (path, line number, name, head, body): the head is its parameters and result, clauses left out."""
    for path, lines in files():
        at = 0
        while at < len(lines):
            m = re.match(r"(\s*)(?:pub )?(?:extern \"C\" )?fn (\w+)", lines[at])
            if not m:
                at += 1
                continue
            first, indent = at, m.group(1)
            while at < len(lines) and lines[at].rstrip() != indent + "}":
                at += 1
            text = lines[first:at + 1]
            opens = next((i for i, line in enumerate(text) if line.rstrip() == indent + "{" or re.search(r"[)>\w] \{$", line)), 0)
            head, depth = [], 0
            for line in text[:opens + 1]:
                if re.match(r"\s*(requires|ensures)\b", line):
                    break
                head.append(line)
            yield path, first + 1, m.group(2), "\n".join(head), "\n".join(text[opens + 1:-1])
            at += 1


def enums_of_std():
    """1a: own enums all of whose variants but one hold nothing, or hold an error beside a value: the shape of Option, Result or Ordering."""
    for path, lines in files():
        text = "\n".join(lines)
        for m in re.finditer(r"enum (\w+) \{([^}]*)\}", text):
            variants = [v.strip() for v in m.group(2).split(",") if v.strip()]
            names = {re.match(r"\w+", v).group(0) for v in variants}
            if len(variants) == 2 or names == {"Less", "Equal", "Greater"}:
                yield path, text[:m.start()].count("\n") + 1, m.group(1)


def flags_beside():
    """1b: structs with a number or an enum that says whether the fields beside it mean anything."""
    for path, lines in files():
        text = "\n".join(lines)
        for m in re.finditer(r"struct (\w+)(?:<[^>]*>)? \{([^}]*)\}", text):
            flag = re.search(r"\b(verdict|refusal|number|ended|begun|failed|found|end): (\w+)", m.group(2))
            if flag and flag.group(2) not in ("usize", "Option"):
                yield path, text[:m.start()].count("\n") + 1, m.group(1) + "." + flag.group(1)


def numbers_for_refusals():
    """1c: constants and literals that number a refusal, and functions that take a kind as a number."""
    for path, lines in files():
        for i, line in enumerate(lines):
            if re.search(r"const [A-Z_]+: u64 = \d+;", line) and path.startswith("crates/sheet/"):
                yield path, i + 1, line.strip()
            elif re.search(r"Refused\(\w+\)|no_stretch\(\d+\)|Verdict::Refused", line):
                yield path, i + 1, line.strip()
            elif re.match(r"\s+kind: u64,$", line) or re.search(r"\bkind: u64\b.*\)", line):
                yield path, i + 1, line.strip()


def none_as_a_number():
    """1d: functions that answer the number behind the last where there is none."""
    for path, line, name, head, body in functions():
        tail = body.strip().split("\n")[-1].strip()
        bound = re.search(r"while \w+ < (\w+)", body)
        if "-> usize" in head and (re.search(r"\.find\(.*unwrap_or\(\w+\)", " ".join(body.split())) or bound and bound.group(1) == tail and re.search(r"return [a-z]\w*;", body)):
            yield path, line, name


def skeleton(body):
    return tuple("w" if re.match(r"[A-Za-z_0-9]", t) and t not in KEYWORDS else t for t in WORD.findall(body))


def twins():
    """2: functions of the library whose bodies, of 30 tokens or more, are the same but for names and numbers."""
    groups = defaultdict(list)
    for path, line, name, head, body in functions():
        key = skeleton(body)
        if len(key) >= 30:
            groups[key].append((path, line, name))
    for group in groups.values():
        for place in group[1:]:
            yield place[0], place[1], place[2] + " ~ " + group[0][2]


def counted_loops():
    """3: `while` loops whose counter goes up or down by one at each turn."""
    for path, lines in files():
        for i, line in enumerate(lines):
            m = re.match(r"(\s*)while (.*) \{$", line)
            if not m:
                continue
            end = next(j for j in range(i + 1, len(lines)) if lines[j].rstrip() == m.group(1) + "}")
            inside = "\n".join(lines[i + 1:end])
            if any(re.search(r"\b%s [-+]= 1;" % name, inside) for name in re.findall(r"\b[a-z_]\w*\b", m.group(2))):
                yield path, i + 1, line.strip()


def all_whiles():
    """3, all: every `while`."""
    for path, lines in files():
        for i, line in enumerate(lines):
            if re.match(r"\s*while ", line):
                yield path, i + 1, line.strip()


def by_hand():
    """4: conversions, copies and comparisons written as functions of their own."""
    for path, line, name, head, body in functions():
        if name in ("compare", "copy", "wide", "bit", "mark_of", "number_of", "least", "goes_on", "number", "turn", "clear", "write_over"):
            yield path, line, name


def together():
    """5: functions that take three or more parameters which travel together through three functions or more."""
    sets = (("starts", "columns", "places"), ("starts", "columns", "store"), ("run", "starts", "numbers"), ("run", "begins"), ("s", "w", "count"), ("columns", "dep", "need"),
            ("sheet", "base", "store", "old", "new"), ("starts", "columns", "rooms"), ("run", "starts"))
    for path, line, name, head, body in functions():
        params = set(re.findall(r"\b(?:mut )?(\w+): ", head))
        for group in sets:
            if params >= set(group):
                yield path, line, name + " (" + ", ".join(group) + ")"
                break
        else:
            if re.search(r"\bplan: Plan\b", head):
                yield path, line, name + " (plan by value)"


def lengths_beside():
    """6: searches by halves, and reads of a part's place field by field."""
    for path, line, name, head, body in functions():
        if re.search(r"let mid = lo", body):
            yield path, line, name + " (a search by halves)"
        elif re.search(r"from \+ p\.room \* |list\.start;", body):
            yield path, line, name + " (a part's stretch by its fields)"


def switches():
    """7: bool parameters that say which step to run."""
    for path, line, name, head, body in functions():
        for m in re.finditer(r"\b(equal|two|keyed|unpromised|up): bool", head):
            yield path, line, name + "." + m.group(1)


def repeats_of_falses():
    """4 and 3: tests written as `if .. { return false; }` where an expression says it."""
    for path, line, name, head, body in functions():
        if re.search(r"-> bool", head) and re.search(r"return (?:true|false);", body):
            yield path, line, name


POINTS = (("1a own enums of the shape of Option, Result, Ordering", enums_of_std), ("1b flags with values beside", flags_beside), ("1c numbers for refusals and kinds", numbers_for_refusals),
          ("1d a number behind the last for none", none_as_a_number), ("2 twins", twins), ("3 loops that count by one", counted_loops), ("3 every `while`", all_whiles),
          ("4 conversions, copies, comparisons by hand", by_hand), ("4 bools by return", repeats_of_falses), ("5 parameters that travel together", together), ("6 searches and stretches by hand", lengths_beside),
          ("7 switches", switches))

for title, find in POINTS:
    places = list(find())
    print("%4d  %s" % (len(places), title))
    if "-v" in sys.argv:
        for path, line, what in places:
            print("        %s:%d %s" % (path, line, what))
