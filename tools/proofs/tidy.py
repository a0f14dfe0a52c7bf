#!/usr/bin/env python3
"""Names the places of a function proof's long clauses once (`let at-loop = c .before .. in`) and breaks their lines.

    tidy.py PROOF..

A clause `NEED c = ..` is touched only if it has a line over 160 characters and names no place yet. Where it calls omega, search or cc, which look at every
variable in scope, no place is named and the lines are only broken. `rt fmt` after it.
"""
import re
import sys

LONGEST = 156
OF_START = {"args", "pre", "good", "fits", "κs"}
OPEN, CLOSE = "([{", ")]}"


def cut(text, mark):
    """the parts of text between the marks that stand in no bracket"""
    parts, depth, part = [], 0, ""
    for ch in text:
        depth += (ch in OPEN) - (ch in CLOSE)
        if ch == mark and depth == 0:
            parts.append(part)
            part = ""
        else:
            part += ch
    return [p for p in (x.strip() for x in parts + [part]) if p]


def bracketed(text, indent):
    """an expression in brackets, broken: a tuple part by part, any other within its brackets"""
    parts = cut(text[1:-1], ",")
    if len(parts) == 1:
        lines = broken(parts[0], indent)
        lines[0] = indent + "(" + lines[0][len(indent):]
        lines[-1] += ")"
        return lines
    lines = [indent + "("]
    for part in parts:
        lines += broken(part, indent + "  ")
        lines[-1] += ","
    return lines + [indent + ")"]


def record(text, indent):
    lines = [indent + "record {"]
    for field in cut(text[1:-1], ";"):
        name, value = field.split(" = ", 1)
        if len(indent) + len(field) + 3 <= LONGEST:
            lines.append(f"{indent}  {field};")
        else:
            lines += [f"{indent}  {name} ="] + broken(value, indent + "      ")
            lines[-1] += ";"
    return lines + [indent + "}"]


def broken(text, indent):
    """an expression in lines that are short enough, cut between its outermost arguments; `∙` begins a line"""
    if len(indent) + len(text) <= LONGEST:
        return [indent + text]
    words = cut(text, " ")
    if words[0] == "record" and len(words) == 2:
        return record(words[1], indent)
    if len(words) == 1:
        return bracketed(text, indent) if text[0] == "(" else [indent + text]
    lines, line = [], ""
    for word in words:
        longer = f"{line} {word}" if line else word
        if len(indent) + len(longer) <= LONGEST:
            line = longer
            continue
        if line:
            lines.append(indent + line)
        more = broken(word, indent)
        lines += more[:-1]
        line = more[-1][len(indent):]
    lines.append(indent + line)
    for k in range(len(lines) - 1):
        if lines[k].endswith(" ∙"):
            lines[k], lines[k + 1] = lines[k][:-2], indent + "∙ " + lines[k + 1][len(indent):]
    return lines


def after_lets(text, indent):
    """the same where lets stand before it, each on a line of its own"""
    lines = []
    while text.startswith("let "):
        depth = end = 0
        while end < len(text) and not (depth == 0 and text.startswith(" in ", end)):
            depth += (text[end] in OPEN) - (text[end] in CLOSE)
            end += 1
        name, value = text[:end].split(" = ", 1)
        whole = broken(f"{name} = {value} in", indent)
        lines += whole if len(whole) == 1 else [f"{indent}{name} ="] + broken(value + " in", indent)
        text = text[end + 4:]
    return lines + broken(text, indent)


def named(text):
    """the lets that name the places, and the text with these names"""
    path = r"(?<![\w.-])c((?: \.before)+) \.(?!before\b)([a-zA-Zκ][\w-]*)"
    places = {}
    for steps, field in re.findall(path, text):
        places.setdefault(steps.count(".before"), "at-start" if field in OF_START else "at-" + field)
    lets, before, so_far = [], "c", 0
    for depth in sorted(places):
        lets.append(f"    let {places[depth]} = {before}{' .before' * (depth - so_far)} in")
        before, so_far = places[depth], depth
    return lets, re.sub(path, lambda m: f"{places[m.group(1).count('.before')]} .{m.group(2)}", text)


def tidy(clause):
    head, body = re.match(r"(.*? c(?: κs)?) =\s*(.*)", clause, re.S).groups()
    if max(map(len, clause.split("\n"))) <= 160 or "let at-" in body or re.search(r"\bwhere\b", body):
        return clause
    text = re.sub(r"\s*\n\s*", " ", body).strip()
    lets = []
    if not re.search(r"\b(omega|search|cc)\b", text):
        lets, text = named(text)
    return "\n".join([head + " ="] + lets + after_lets(text, "    "))


for proof in sys.argv[1:]:
    text = open(proof).read()
    open(proof, "w").write(re.sub(r"(?m)^[\w-]+(?: \w+)*? c(?: κs)? =.*(?:\n +.*)*", lambda m: tidy(m.group(0)), text))
