#!/usr/bin/env python3
"""Looks for the eighty step constants of Luffa in object files, archives and programs: in the bytes of every section and in the instructions.

find.py FILE.. [--least N]: prints each place where one stands, and how many of the words were found. The status is 0 where there is none, or, with
--least, where at least N of the words were found in each file."""

import os
import re
import struct
import subprocess
import sys

# Source, B-1 and Appendix A: what may stand in the files.
STARTS = [0x181CCA53380CDE06, 0x5B6F0876F16F8594, 0x7E106CE938979CB0, 0xBB62F36492E93C29, 0x9A025047CFF2A940]
STARTING_VARIABLES = """
    6d251e69 44b051e0 4eaa6fb4 dbf78465 6e292011 90152df4 ee058139 def610bb
    c3b44b95 d9d2f256 70eee9a0 de099fa3 5d9b0557 8fc944b3 cf1ccf0e 746cd581
    f7efc89d 5dba5781 04016ce5 ad659c05 0306194f 666d1836 24aa230a 8b264ae7
    858075d5 36d79cce e571f7d7 204b1f67 35870c6a 57e9e923 14bcb808 7cde72ce
    6c68e9be 5ec41e22 c825b7c7 affb4363 f5df3999 0fc688f1 b07224cc 03e86cea"""

# 4.4: the exponents of g(x) but for its heading term.
G = sum(1 << e for e in (63, 62, 58, 55, 54, 52, 50, 49, 46, 43, 40, 38, 37, 35, 34, 30, 28, 26, 24, 23, 22, 18, 17, 12, 11, 10, 7, 3, 2, 0))
LOW = 0xFFFFFFFF


def constants(t):
    """4.4, the equations: the sixteen words from a start; each is the left half before the exchange."""
    words = []
    for _ in range(16):
        t = (t << 1) ^ (G | 1 << 64 if t >> 63 else 0)
        words.append(t >> 32)
        t = (t & LOW) << 32 | t >> 32
    return words


def sought():
    """The words to look for, by what is said of each."""
    blocks = [constants(t) for t in STARTS]
    # The examples of the exact rules: block 0, step 0, and the misprinted entry.
    assert blocks[0][:2] == [0x303994A6, 0xE0337818] and blocks[1][11] == 0xFAA7AE2B
    known = {half for t in STARTS for half in (t >> 32, t & LOW)} | {int(w, 16) for w in STARTING_VARIABLES.split()}
    named = {}
    for j, words in enumerate(blocks):
        for k, word in enumerate(words):
            if word not in known:
                named[word] = f"block {j}, step {k // 2}, word {4 * (k % 2)}"
    return named


def objects(data):
    """The object files of an archive, or the file itself."""
    if not data.startswith(b"!<arch>\n"):
        yield data
        return
    at = 8
    while at + 60 <= len(data):
        name, size = data[at : at + 16].rstrip(), int(data[at + 48 : at + 58])
        if data[at + 60 : at + 64] == b"\x7fELF":
            yield data[at + 60 : at + 60 + size]
        else:
            assert name in (b"/", b"//", b"/SYM64/"), f"a member that is no object file: {name!r}"
        at += 60 + size + size % 2


def sections(elf):
    """The sections of an ELF file for x86-64 that have bytes in it, by name."""
    assert elf[:6] == b"\x7fELF\x02\x01", "no ELF file of 64 bits"
    (table,) = struct.unpack_from("<Q", elf, 40)
    size, count, names = struct.unpack_from("<HHH", elf, 58)
    heads = [struct.unpack_from("<IIQQQQ", elf, table + size * k) for k in range(count)]
    strings = heads[names][4]
    for name, kind, _, _, offset, length in heads:
        if kind not in (0, 8):  # SHT_NULL, SHT_NOBITS
            end = elf.index(b"\0", strings + name)
            yield elf[strings + name : end].decode(), elf[offset : offset + length]


def forms(word):
    """What may stand for a word: it, its complement, which serves an exclusive or beside a complement, and its negative."""
    return (("", word), ("complement of ", word ^ LOW), ("negative of ", -word & LOW))


def in_bytes(data, named):
    """The words in the bytes of the sections, at any offset, lowest byte first or highest first."""
    for elf in objects(data):
        for section, content in sections(elf):
            for word in named:
                for form, value in forms(word):
                    for order in ("little", "big"):
                        at = content.find(value.to_bytes(4, order))
                        if at >= 0:
                            yield word, f"{form}{word:08x} ({named[word]}) in {section} at {at}, {order} end first"


def in_instructions(path, named):
    """The words among the numbers that instructions hold, whole or as half of one of 64 bits."""
    text = subprocess.run([os.environ.get("OBJDUMP", "objdump"), "-d", "--no-show-raw-insn", path], check=True, capture_output=True, text=True).stdout
    value_of = {value: (form, word) for word in named for form, value in forms(word)}
    for line in text.splitlines():
        for number in re.findall(r"(-?0x[0-9a-f]+)", line.partition(":\t")[2].partition("#")[0]):
            value = int(number, 16) % 2**64
            for half in (value & LOW, value >> 32):
                if half in value_of:
                    form, word = value_of[half]
                    yield word, f"{form}{word:08x} ({named[word]}) in an instruction: {' '.join(line.split())}"


def main(arguments):
    least = 0
    if "--least" in arguments:
        at = arguments.index("--least")
        least = int(arguments[at + 1])
        del arguments[at : at + 2]
    named, right = sought(), True
    for path in arguments:
        with open(path, "rb") as file:
            data = file.read()
        places = list(in_bytes(data, named)) + list(in_instructions(path, named))
        found = len({word for word, _ in places})
        if least == 0:
            for _, place in places:
                print(f"  {place}")
        print(f"{path}: {found} of {len(named)} step constants found")
        right = right and (found >= least if least else found == 0)
    return 0 if right and arguments else 1


if __name__ == "__main__":
    sys.exit(main(sys.argv[1:]))
