#!/usr/bin/env python3
"""Holds docs/STATEMENTS.md to the tree under a root folder: what the page names is there, and no contract or definition says less than it seems to.

Usage: check.py [ROOT]. Each complaint is a line on standard output, and the exit status is 1 where there is one.
"""
import re
import sys
from pathlib import Path

sys.dont_write_bytecode = True
import source
from source import spaced

# Edits that may alter a file of proofs/, each with the reason; the others alter src/ and specs/ alone, so that what is refused is the program.
EDITS_OF_PROOFS = {}

# Where the symbols of contracts, definitions and laws come from; from elsewhere they would mean something else.
HOME = {
    "mathlib.Core.Path": "◌≡◌",
    "mathlib.Core.Bool": "Bool true false not ◌&&◌ ◌||◌",
    "mathlib.Core.List": "List [] ◌∷◌ ◌++◌ map reverse",
    "mathlib.Core.Logic": "◌≢◌ ◌⊎◌ ◌↔◌",
    "Prim.Native.Nat": "ℕ zero suc min ◌<◌ ◌≤◌ ◌+◌ ◌-◌ ◌*◌ ◌/◌ ◌%◌ ◌^◌",
    "Prim": "◌×◌ ⊥ ¬◌",
    "lib.ListN": "length take drop get_or set replicate",
    "lib.Seq": "slice",
    "lib.Dec": "leb ltb eqb",
    "lib.Bits": "bit_xor bit_or bit_and",
    "Rattle.core.specs.Bool": "nat_eq nat_lt nat_le ◌==◌",
    "Rattle.core.specs.List": "slice_index slice_set",
}
HOME_OF = {name: module for module, names in HOME.items() for name in names.split()}
# The modules of the library that pass these on, and declare none of them.
PASSED_ON = {"Rattle.std.specs.Prelude", "Rattle.std.specs.Int.Bits", "Rattle.std.proofs.Common", "Rattle.std.proofs.Math.Seq"}
LIBRARIES = {module.split(".")[0] for module in {*HOME, *PASSED_ON}}
CONSTRUCTORS = {"zero", "suc", "true", "false", "[]"}  # they stand on the left of equations
# What a clause calls the function's result, and the fields of a reference: what it points to, at the beginning and at the end.
RESULT, LENT = "result", {"now", "old", "new"}

CALLS = "Each call"
WRONG = "Wrong programs that are refused"
ASKING = "Functions that ask something of their callers"
ASSUMED = "What is assumed"
# The column of names and the column of the files that declare them, by their headings; of several pairs the first that a table has counts.
DECLARED_IN = (("Met by", "File"), ("Theorem", "File"), ("Field of `After`", "File"), ("Its outcome", "In"))
KEYWORDS = {"requires", "ensures"}

FILE = r"(?:[a-z0-9_]+/)*[A-Za-z0-9_]+\.antt"
NAMES = r"`[^`]+`(?:(?:, and |, | and )`[^`]+`)*"


def ticked(text):
    """The names between backticks."""
    return re.findall(r"`([^`]+)`", text)


# -- The page


class Table:
    """A table of the page: the section it stands in, its headings, and its rows as cells by heading."""

    def __init__(self, section, headings):
        self.section, self.headings, self.rows = section, headings, []

    def column(self, words):
        """The first heading that has these words."""
        return next((heading for heading in self.headings if words in heading), None)


def cells(line):
    return [cell.strip() for cell in line.strip().strip("|").split("|")]


def tables_of(text):
    section, table, found = "", None, []
    for line in text.split("\n"):
        if line.startswith("## "):
            section = line[3:].strip()
        if not line.startswith("|"):
            table = None
        elif table is None:
            table = Table(section, cells(line))
            found.append(table)
        elif not re.fullmatch(r"[|\s:-]+", line):
            table.rows.append(dict(zip(table.headings, cells(line))))
    return found


# -- The checker


class Checker:
    def __init__(self, root):
        self.root, self.complaints = root, []
        self.page = (root / "docs/STATEMENTS.md").read_text()
        self.tables = tables_of(self.page)
        self.crates = {folder.name for folder in (root / "crates").iterdir() if folder.is_dir()}
        self.sources = sorted((root / "crates").glob("*/src/**/*.rt"))
        self.definitions = sorted((root / "crates").glob("*/specs/**/*.antt"))
        self.proofs = sorted((root / "crates").glob("*/proofs/**/*.antt"))
        self.edits = sorted((root / "crates").glob("*/must-fail/*.edit"))
        self.texts = {file: source.read(file) for file in [*self.sources, *self.definitions, *self.proofs]}
        self.all = [f for file in self.sources for f in source.functions_in(self.texts[file], file)]
        self.functions = {f.path: f for f in self.all}
        self.names, self.named_edits = 0, set()

    def say(self, complaint):
        if complaint not in self.complaints:
            self.complaints.append(complaint)

    def shown(self, file):
        return str(file).removeprefix(f"{self.root}/")

    def crate_of(self, file):
        return self.shown(file).split("/")[1]

    def public(self):
        return [f for f in self.all if f.public]

    def run(self):
        self.theorems()
        self.theorems_in_prose()
        self.hypotheses()
        self.listed_functions()
        self.edits_named()
        self.edit_files()
        self.contracts()
        self.asking()
        self.symbols()
        self.lent_fields()
        self.nothing_assumed()
        return self.complaints

    # Names and files

    def located(self, name):
        """A file of the page as a path: CRATE/specs/.. or CRATE/.., which is in the crate's proofs; without a crate, the definition's."""
        first, _, rest = name.partition("/")
        crate, inside = (first, rest) if first in self.crates else ("definition", name)
        return self.root / "crates" / crate / (inside if inside.startswith(("specs/", "proofs/")) else f"proofs/{inside}")

    def hold_declared(self, names, files):
        """Each of the names is declared in one of the files, and each file is there and declares one of them."""
        paths = {file: self.located(file) for file in files}
        for file in files:
            if paths[file] not in self.texts:
                self.say(f"the page names {file}, and it isn't there")
                del paths[file]
        for name in names:
            self.names += 1
            if paths and not any(name in source.declared_in(self.texts[path]) for path in paths.values()):
                self.say(f"{name} isn't declared in {', '.join(files)}")
        for file, path in paths.items():
            if not any(name in source.declared_in(self.texts[path]) for name in names):
                self.say(f"{file} declares none of {', '.join(names)}")

    def theorems(self):
        for table in self.tables:
            pair = next((p for p in DECLARED_IN if p[0] in table.headings and p[1] in table.headings), None)
            for row in table.rows if pair else []:
                names = [name for name in ticked(row[pair[0]]) if name not in KEYWORDS]
                files = re.findall(FILE, row.get(pair[1], ""))
                if names and not files:
                    self.say(f"{', '.join(names)}: the row names no file")
                elif files:
                    self.hold_declared(names, files)

    def theorems_in_prose(self):
        """`a`, `b` of File.antt, and File.antt (`a`, `b`, ..)."""
        for names, file in re.findall(rf"({NAMES}) of ({FILE})", self.page):
            self.hold_declared(ticked(names), [file])
        for file, names in re.findall(rf"({FILE}) \((`[^)]*)\)", self.page):
            self.hold_declared(ticked(names), [file])

    def hypotheses(self):
        """The theorems whose hypotheses are said to be met are declared in a file that the page names."""
        files = [path for path in map(self.located, set(re.findall(FILE, self.page))) if path in self.texts]
        for table in self.tables:
            for row in table.rows if {"Theorem", "Met by"} <= set(table.headings) else []:
                for name in ticked(row["Theorem"]):
                    if not any(name in source.declared_in(self.texts[path]) for path in files):
                        self.say(f"{name} isn't declared in any file of the page")

    def listed_functions(self):
        """Functions named beside their crate are there."""
        for table in self.tables:
            for row in table.rows if {"Function", "Crate"} <= set(table.headings) else []:
                for name in ticked(row["Function"]):
                    path = f"{row['Crate']}::{name}"
                    if path not in self.functions:
                        self.say(f"the page names the function {path}, and it isn't there")

    # Wrong programs

    def edits_named(self):
        """Each edit of the page is there, and each row of wrong programs has two."""
        for table in self.tables:
            heading = table.column("wrong programs")
            for row in table.rows if heading else []:
                edits = [name for name in ticked(row[heading]) if "/" in name]
                if len(set(edits)) < 2:
                    self.say(f"the row of {row[table.headings[0]]} names fewer than two wrong programs")
                for edit in edits:
                    self.hold_edit(edit)
        for name in re.findall(r"`([a-z0-9_]+/[a-z0-9_]+)`", self.page):
            if name.split("/")[0] in self.crates:
                self.hold_edit(name)

    def hold_edit(self, name):
        self.named_edits.add(name)
        crate, _, edit = name.partition("/")
        if not (self.root / "crates" / crate / "must-fail" / f"{edit}.edit").is_file():
            self.say(f"the page names the edit {name}, and it isn't there")

    def edit_files(self):
        """Each edit says in its first line what the wrong program does, and alters code or definitions and no proof."""
        for edit in self.edits:
            name = f"{edit.parts[-3]}/{edit.stem}"
            lines = edit.read_text().split("\n")
            if not re.match(r"# \S+ \S+", lines[0]):
                self.say(f"the edit {name} doesn't say in its first line what the wrong program does")
            files = [line.partition(":")[2].strip() for line in lines if line.startswith("file:")]
            if not files:
                self.say(f"the edit {name} alters no file")
            others = [file for file in files if not file.startswith(("src/", "specs/"))]
            if others and name not in EDITS_OF_PROOFS:
                self.say(f"the edit {name} alters {', '.join(others)}: only src/ and specs/ may be altered")

    # Contracts

    def contracts(self):
        for f in self.all:
            at = f"{self.shown(f.file)}: {f.path}"
            if f.public and not f.ensures and not f.path.endswith("::main"):
                self.say(f"{at} is public and has no ensures")
            for clause in f.ensures:
                self.hold_clause(at, clause)
            for clause in f.ensures + f.requires:
                bound = source.bound_in(clause, is_clause=True).keys()
                for name in HOME_OF.keys() & bound:
                    self.say(f"{at} binds {name} in its contract, which hides {HOME_OF[name]}.{name}")
                if RESULT in bound:
                    self.say(f"{at} binds {RESULT} in its contract, which hides what the function answers")
            if f.public and f.ensures:
                self.hold_determined(at, f)
            for name, _ in f.parameters:
                if name in HOME_OF:
                    self.say(f"{at} has a parameter {name}, which hides {HOME_OF[name]}.{name} in its contract")
                if name == RESULT:
                    self.say(f"{at} has a parameter {RESULT}, which hides what the function answers")

    def hold_clause(self, at, clause):
        for left, right in source.equations(clause):
            if left == right:
                self.say(f"{at} ensures {left} ≡ {right}, which says nothing")
        if not source.mentions(clause, RESULT) and not re.search(r"\.new\b", clause):
            self.say(f"{at} ensures nothing of its result or of what it was lent: {spaced(clause)}")

    def hold_determined(self, at, f):
        """A public contract has an equation, and speaks of the result and of each thing that is lent for writing."""
        if not any("≡" in clause for clause in f.ensures):
            self.say(f"{at} ensures no equation")
        if f.answers and not any(source.mentions(clause, RESULT) for clause in f.ensures):
            self.say(f"{at} ensures nothing of its result")
        for name, kind in f.parameters:
            if kind.startswith("&") and re.match(r"&('\w+ )?mut\b", kind):
                if not any(source.speaks_of(clause, name) for clause in f.ensures):
                    self.say(f"{at} ensures nothing of {name}, which is lent for writing")

    # Functions with a `requires`

    def asking(self):
        """The page's table of functions that ask something of their callers is that of the tree."""
        table = next((t for t in self.tables if t.section == ASKING), None)
        listed = {}
        for row in table.rows if table else []:
            for name in ticked(row[table.headings[0]]):
                listed[name] = set(ticked(row.get(table.headings[-1], "")))
        for f in self.public():
            if f.requires and f.path not in listed:
                self.say(f"{self.shown(f.file)}: {f.path} is public and has a requires, and the page doesn't list it")
        for name, callers in listed.items():
            self.hold_asking(name, callers)

    def public_calls(self):
        """The functions of the page's table of calls."""
        return {name for t in self.tables if t.section == CALLS for row in t.rows for name in ticked(row.get("Call", ""))}

    def hold_asking(self, name, callers):
        if name.split("::")[0] == "luffa" or name in self.public_calls():
            self.say(f"the page lists {name} as asking something of its callers, and it is a public call")
        if name not in self.functions:
            self.say(f"the page lists {name} as asking something of its callers, and it isn't there")
        elif not self.functions[name].requires:
            self.say(f"the page lists {name} as asking something of its callers, and it has no requires")
        calling = {f.path for f in self.functions.values() if name in f.calls}
        for caller in sorted(callers - calling):
            self.say(f"the page names {caller} as a caller of {name}, and it doesn't call it")
        for caller in sorted(calling - callers):
            self.say(f"{caller} calls {name}, and the page doesn't name it as a caller")

    # Symbols and assumptions

    def laws(self):
        """The proofs of the crates whose theorems the page names; what a proof of a function calls its helpers is its own affair."""
        crates = {self.crate_of(self.located(name)) for name in set(re.findall(FILE, self.page))}
        return [file for file in self.proofs if self.crate_of(file) in crates]

    def symbols(self):
        """In contracts, definitions and laws, a symbol of the libraries means what it means there."""
        laws = self.laws()
        for file in [*self.sources, *self.definitions, *laws]:
            at = self.shown(file)
            for i in source.imports_in(self.texts[file], ghost_alone=file.suffix == ".rt"):
                self.hold_import(f"{at}:{i.line}", i)
        for file in [*self.definitions, *laws]:
            bound = source.bound_in(self.texts[file])
            for name in (bound.keys() & HOME_OF.keys()) - CONSTRUCTORS:
                self.say(f"{self.shown(file)}:{bound[name]}: {name} is given another meaning than {HOME_OF[name]}'s")
            for name in bound.keys() & LIBRARIES:
                self.say(f"{self.shown(file)}:{bound[name]}: {name} hides the library of that name")

    def lent_fields(self):
        """No struct and no record has a field that a contract would read as what a reference points to."""
        for files, fields_in in ((self.sources, source.fields_in), (self.definitions, source.record_fields_in)):
            for file in files:
                for name, line in fields_in(self.texts[file]):
                    if name in LENT:
                        self.say(f"{self.shown(file)}:{line}: a field {name} reads in a contract as what a reference points to")

    def hold_import(self, at, i):
        if i.item == "*":
            self.say(f"{at}: {i.module}.* may bring another meaning of a symbol: name what is used")
        elif i.name in LIBRARIES:
            self.say(f"{at}: {i.name} hides the library of that name")
        elif i.name in HOME_OF and (i.item != i.name or i.module not in {HOME_OF[i.name], *PASSED_ON}):
            self.say(f"{at}: {i.name} comes from elsewhere: {i.module}.{i.item}")

    def nothing_assumed(self):
        for file in [*self.definitions, *self.proofs]:
            for word, line in source.assumed_in(self.texts[file]):
                self.say(f"{self.shown(file)}:{line}: {word}: something is assumed")
        for file in self.sources:
            if re.search(r'\bextern\s*(?:"[^"]*")?\s*\{', self.texts[file]):
                self.say(f'{self.shown(file)}: an extern "C" block: its contracts are assumed')
        table = next((t for t in self.tables if t.section == ASSUMED), None)
        listed = {name for row in table.rows for name in re.findall(r"\w+", row["Crate"])} if table else set()
        for crate in sorted(self.crates ^ listed):
            self.say(f"{crate} is {'not in' if crate in self.crates else 'no crate, and in'} the page's table of what is assumed")


def main(arguments):
    """Prints the complaints, or what was held to the tree, and gives the exit status."""
    checker = Checker(Path(arguments[0] if arguments else Path(__file__).parent / "../..").resolve())
    for complaint in checker.run():
        print(f"statements: {complaint}")
    if not checker.complaints:
        print(f"statements: {checker.names} names, {len(checker.named_edits)} edits, {len(checker.public())} public functions")
    return 1 if checker.complaints else 0


if __name__ == "__main__":
    sys.exit(main(sys.argv[1:]))
