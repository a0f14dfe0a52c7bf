#!/usr/bin/env python3
"""Lets a function's proof follow its code: every path `c .before .. .FIELD` gets the length that the list of places says.

    follow.py PROOF PLACES FN

PLACES has a part `== .../FN/Lts.antt` for each function, and in it for each need a line `Need-NAME  c : RECORD`, then `[0].field [1].field .. [n] Start`.
"""
import re
import sys

OF_START = {"args", "pre", "good", "fits", "κs"}


def places_of(text, function):
    """need -> field -> how many .before lead there"""
    part = next(p for p in re.split(r"(?m)^== ", text) if re.match(rf".*\b{re.escape(function)}/Lts", p.split("\n")[0]))
    lines = part.split("\n")
    needs = {}
    for line, below in zip(lines, lines[1:]):
        need = re.match(r"Need-(\S+)\s+c : ", line)
        if need:
            fields = {}
            for depth, field in re.findall(r"\[(\d+)\]\.?\s*([\w-]+)", below):
                fields.setdefault(field, int(depth))
            needs[need.group(1)] = fields
    return needs


def follow(clause, fields, need):
    def path(m):
        place = "Start" if m.group(1) in OF_START else m.group(1)
        if place not in fields:
            print(f"{need}: no place has the field {m.group(1)}", file=sys.stderr)
            return m.group(0)
        return "c" + " .before" * fields[place] + " ." + m.group(1)

    clause = re.sub(r"(?<![\w.-])c(?: \.before)* \.(?!before\b)([a-zA-Zκ][\w-]*)", path, clause)
    start = "c" + " .before" * fields["Start"]
    return re.sub(r"(let (?:st|at-start) = )c(?: \.before)+ in", lambda m: m.group(1) + start + " in", clause)


def main(proof, places, function):
    needs = places_of(open(places).read(), function)

    def clause(m):
        need = m.group(1)
        return follow(m.group(0), needs[need], need) if need in needs else m.group(0)

    text = open(proof).read()
    open(proof, "w").write(re.sub(r"(?m)^([\w-]+) c(?: κs)? =.*(?:\n[ \t]+.*)*", clause, text))


main(*sys.argv[1:4])
