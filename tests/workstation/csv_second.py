#!/usr/bin/env python3
"""csv_second.py PROGRAM SAMPLES: the CSV form as Python's csv module reads and writes it. Files of random lists that
PROGRAM writes are parsed strictly and decoded here; and what the module writes of them, in every way of quoting,
PROGRAM reads to the same records."""
import csv
import io
import re
import subprocess
import sys
import tempfile
import unicodedata

NAMES = ["number", "kind", "rate"] + [f"{what} {k}" for k in range(1, 5) for what in ("injector", "share")] + ["note"]
BIDI = ["LRE", "RLE", "LRO", "RLO", "PDF", "LRI", "RLI", "FSI", "PDI"]
KINDS = {"producer": 1, "injector": 2}


def note_bytes(text):
    """The bytes of a note: two backslashes are one, and \\x and two digits are a byte."""
    def one(found):
        escape = found.group(1)
        return b"\\" if escape == b"\\" else bytes([int(escape[1:], 16)])
    note = re.sub(rb"\\(\\|x[0-9a-f]{2})", one, text.encode())
    assert len(note) <= 16, text
    return note.ljust(16, b"\0")


def record(cells):
    number, kind, rate, *links, note = cells
    if kind == "struck":
        assert cells == ["", "struck"] + 10 * [""], cells
        return bytes(40)
    if kind == "bytes":
        assert cells[:-1] == ["", "bytes"] + 9 * [""], cells
        return bytes.fromhex(note)
    used = sum(cell != "" for cell in links)
    assert used % 2 == 0 and all(links[:used]), cells
    numbers = [int(cell or "0") for cell in links]
    return (int(number).to_bytes(2, "big") + bytes([KINDS[kind] if kind in KINDS else int(kind), used // 2])
            + int(rate).to_bytes(4, "big") + b"".join(n.to_bytes(2, "big") for n in numbers) + note_bytes(note))


def printed(opened, records):
    return f"opened {opened}\n" + "".join(r.hex() + "\n" for r in records)


def run(*arguments):
    return subprocess.run([program, *arguments], check=True, capture_output=True, text=True).stdout


def parse(name):
    """The rows of a file after its header, and the digests of its line `opened`."""
    with open(name, encoding="utf-8", newline="") as file:
        text = file.read()
    for c in set(text) - {"\n"}:
        assert unicodedata.category(c) not in ("Cc", "Cs", "Zl", "Zp"), ascii(c)
        assert unicodedata.bidirectional(c) not in BIDI, ascii(c)
    rows = list(csv.reader(io.StringIO(text, newline=""), strict=True))
    opened = ",".join(rows.pop(0)[1:]) if rows[0][0] == "opened" else ""
    assert rows.pop(0) == NAMES
    for row in rows:
        assert len(row) == 12, row
        assert not [cell for cell in row if cell and (cell[0] in "=+-@" or cell[0] < " ")], row
    return rows, opened


def write(name, rows, opened, quoting, end, mark):
    with open(name, "w", encoding="utf-8-sig" if mark else "utf-8", newline="") as file:
        if opened:
            file.write(f"opened,{opened}{end}")
        writer = csv.writer(file, quoting=quoting, lineterminator=end)
        writer.writerow(NAMES)
        for *cells, note in rows:
            writer.writerow([int(cell) if cell.isdigit() else cell for cell in cells] + [note])


def plain(row):
    """A row with its note as plain text, where a file can hold that: no zero, which isn't text, and no carriage return,
    which the module doesn't put in quotes where lines end without one."""
    if row[1] == "bytes" or "\\" not in row[-1]:
        return row
    note = note_bytes(row[-1]).rstrip(b"\0")
    try:
        return row if b"\0" in note or b"\r" in note else row[:-1] + [note.decode().replace("\\", "\\\\")]
    except UnicodeDecodeError:
        return row


program, samples = sys.argv[1], int(sys.argv[2])
ways = [(quoting, end, mark) for quoting in (csv.QUOTE_ALL, csv.QUOTE_MINIMAL, csv.QUOTE_NONNUMERIC)
        for end in ("\n", "\r\n") for mark in (False, True)]
with tempfile.TemporaryDirectory() as folder:
    name, wells = f"{folder}/sample.csv", 0
    for seed in range(samples):
        want = run("sample", name, str(seed))
        rows, opened = parse(name)
        records = [record(row) for row in rows]
        assert printed(opened, records) == want, f"seed {seed}: other records"
        wells += len(rows)
        for way in ways if seed % 4 == 0 else ():
            for form in (rows, [plain(row) for row in rows]):
                write(name, form, opened, *way)
                assert run("read", name) == want, f"seed {seed}: written as {way}, and read as another list"
print(f"csv_second: {samples} files of {wells} wells parsed, a quarter of them written in {len(ways)} ways and read")
