#!/usr/bin/env python3
"""Writes into crates.txt, for each crate, the crates that it names itself, in the order of the list. The kit's stay as they are listed.

Run it at the top of the repository.
"""
import glob
import re


def source(name):
    files = glob.glob(f"crates/{name}/**/*.antt", recursive=True) + glob.glob(f"crates/{name}/**/*.rt", recursive=True)
    return re.sub(r"(?m)^\s*--.*$|//.*$", "", "\n".join(open(f).read() for f in files))


def line_of(line, order):
    # NAME, or NAME staticlib
    head, listed = line.split(":")
    name = head.split()[0]
    text = source(name)
    names = set(re.findall(r"\bRattle\.([a-z_0-9]+)\.", text)) | set(re.findall(r"\b([a-z_0-9]+)::", text))
    rests_on = [n for n in order if n in names and n != name] + [n for n in listed.split() if n not in order]
    return " ".join([head + ":"] + rests_on)


lines = open("crates.txt").read().split("\n")
is_crate = [":" in line and not line.startswith("#") for line in lines]
crates = [line.split(":")[0].split()[0] for line, one in zip(lines, is_crate) if one]
out = [line_of(line, crates) if one else line for line, one in zip(lines, is_crate)]
open("crates.txt", "w").write("\n".join(out))
