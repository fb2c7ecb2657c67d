#!/usr/bin/env python3
"""Brings the repository's own names to today's spelling, after the kit's port.py (port/ beside the page that `rt doc` names): definitions and
lemmas in snake case by names.tsv beside this file (ported.tsv: what port.py turned), the crate `bytes` as `octets` (Rattle has a library bytes),
and the paths and words of must-fail edits and pages as port.py writes them.
usage: tools/respell.py, once, at the top, on what port.py made."""
import glob
import os
import re
import subprocess

HERE = os.path.dirname(os.path.realpath(__file__))
TOKEN = re.compile(r"[^\s(){}.;,@\"«»\[\]`\\:|/]+")
SPAN = re.compile(r"`[^`\n]+`")

with open(os.path.join(HERE, "names.tsv"), encoding="utf-8") as f:
    NAMES = dict(line.rstrip("\n").split("\t") for line in f)
# Lemmas that had a dash and now would have the name of a definition: as a crate's name, beside a dot, the word stays.
LEMMAS = {old for old, new in NAMES.items() if new == old + "_lem"}
CAMEL = {old: new for old, new in NAMES.items() if re.match(r"[a-z]\w*[A-Z]", old) and "-" not in old}
# What port.py itself turned in .antt and .rt, for edits and pages, which it leaves.
with open(os.path.join(HERE, "ported.tsv"), encoding="utf-8") as f:
    PORTED = dict(line.rstrip("\n").split("\t") for line in f)


def turned(text, names):
    def one(m):
        w = m.group()
        if w not in names:
            return w
        beside = text[m.start() - 1 : m.start()] == "." or text[m.end() : m.end() + 1] == "."
        return w if w in LEMMAS and beside else names[w]

    return TOKEN.sub(one, text)


def antt(text):
    out = []
    for line in text.split("\n"):
        m = re.search(r"(?:^|\s)--(?:\s|$)", line)
        code, rest = (line, "") if not m else (line[: m.start()], line[m.start() :])
        out.append(turned(code, NAMES) + SPAN.sub(lambda s: turned(s.group(), NAMES), turned(rest, CAMEL)))
    return "\n".join(out)


def crate(text):
    text = re.sub(r"\bRattle([.·])bytes\b", r"Rattle\1octets", text)
    text = re.sub(r"\buse bytes::", "use octets::", text)
    return re.sub(r"(?<![\w:])bytes::(?=[a-z])", "octets::", text)


def written(path, make):
    with open(path, encoding="utf-8") as f:
        old = f.read()
    new = make(old)
    if new != old:
        with open(path, "w", encoding="utf-8") as f:
            f.write(new)


def main():
    for p in glob.glob("crates/**/*.antt", recursive=True):
        written(p, lambda t: crate(antt(t)))
    for p in glob.glob("crates/**/*.rt", recursive=True):
        written(p, lambda t: crate(turned(t, CAMEL)))
    for p in glob.glob("crates/**/*.edit", recursive=True):
        written(p, lambda t: crate(turned(t, NAMES | PORTED)))
    for p in glob.glob("docs/*.md") + ["README.md"]:
        written(p, lambda t: crate(SPAN.sub(lambda s: turned(s.group(), NAMES | PORTED), t)))
    written("crates.txt", lambda t: re.sub(r"\bbytes\b", "octets", t))
    subprocess.run(["git", "mv", "crates/bytes", "crates/octets"], check=True)


main()
