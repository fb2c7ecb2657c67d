#!/usr/bin/env python3
"""The seals of a database's rows, worked out from its columns as the workstation's documents have them: seals.py DIGEST, where
DIGEST is a program that prints the 256-bit digest of its standard input. Reads a row a line, its cells between bars: of a sheet `sheet`,
its name, code, number of records, saves, digest and seal; of a save `save`, its sheet, number, id, who, seconds since 1970, digest before,
steps, digest after and seal. Texts and bytes stand in hexadecimal digits. Says how many seals were as they should be."""
import subprocess
import sys


def number(n, size):
    return int(n).to_bytes(size, "big")


def digits(text):
    return bytes.fromhex(text)


def padded(some, size):
    assert len(some) <= size
    return some + bytes(size - len(some))


def sheet(name, code, records, saves, digest, seal):
    """The head that a file has before its own seal, with a log of no bytes; and the name."""
    head = b"LufSheet" + number(2, 4) + number(code, 4) + number(records, 4) + bytes(4) + number(saves, 8) + bytes(8)
    return head + padded(digits(digest), 64) + digits(name), seal


def save(name, count, id, who, when, before, steps, after, seal):
    """The entry that a file's log has, not marked as accepted; the id, the number and the sheet's name."""
    steps = digits(steps)
    assert len(steps) % 48 == 0 and steps
    entry = padded(digits(who), 24) + number(when, 8) + number(len(steps) // 48, 4) + bytes(4) + padded(digits(before), 64)
    return entry + steps + padded(digits(after), 64) + digits(id) + number(count, 8) + digits(name), seal


def main():
    kinds = {"sheet": sheet, "save": save}
    seen = {kind: 0 for kind in kinds}
    for line in sys.stdin:
        kind, *cells = line.rstrip("\n").split("|")
        sealed, seal = kinds[kind](*cells)
        found = subprocess.run([sys.argv[1]], input=sealed, stdout=subprocess.PIPE, check=True).stdout.decode().split()[0]
        if found != seal:
            sys.exit(f"another seal than the documents': {line}")
        seen[kind] += 1
    print(f"seals: {seen['sheet']} sheets, {seen['save']} saves")


main()
