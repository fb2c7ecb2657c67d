#!/usr/bin/env python3
"""samples.py FORM: a C file that has every step constant in one form, for find.py to be tried on."""

import sys

from find import LOW, sought

FORMS = {
    "data": "const uint32_t word{k} = 0x{word:08x};",
    "bytes": "const uint8_t word{k}[] = {{0x{b[0]:02x}, 0x{b[1]:02x}, 0x{b[2]:02x}, 0x{b[3]:02x}}};",
    "whole": "uint32_t word{k}(uint32_t x) {{ return x ^ 0x{word:08x}; }}",
    "complement": "uint32_t word{k}(uint32_t x) {{ return x ^ 0x{complement:08x}; }}",
    "difference": "uint32_t word{k}(uint32_t x) {{ return x - 0x{word:08x}; }}",
    "left-half": "uint64_t word{k}(uint64_t x) {{ return x ^ 0x{word:08x}00000005; }}",
    "right-half": "uint64_t word{k}(uint64_t x) {{ return x ^ 0x5{word:08x}; }}",
}

if sys.argv[1:] == ["--list"]:
    print("\n".join(FORMS))
else:
    print("#include <stdint.h>")
    for k, word in enumerate(sought()):
        print(FORMS[sys.argv[1]].format(k=k, word=word, complement=word ^ LOW, b=word.to_bytes(4, "big")))
