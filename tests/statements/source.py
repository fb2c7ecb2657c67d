"""Reads the text of crates/: the functions of .rt files with their clauses and calls, and what .antt text imports and declares.

It knows the layout of the sources and no rule, and remembers what it found in a text: check.py holds it to the rules.
"""
import re
from dataclasses import dataclass
from functools import cache
from pathlib import Path

OPEN, CLOSE = "({[⟦", ")}]⟧"
ANTT_COMMENT = re.compile(r"(?<!\S)--[^\n]*|\{-.*?-\}", re.S)
LITERAL_OR_COMMENT = re.compile(r'"(?:\\.|[^"\\])*"|b?\'(?:\\.|[^\'\\])\'|//[^\n]*|/\*.*?\*/', re.S)
HEAD = re.compile(
    r'(?P<mark>\bpub(?P<within>\s*\([^)]*\))?\s+)?(?:(?:const|unsafe|final)\s+)*(?:extern\s+"C"\s+)?\bfn\s+(?P<name>\w+)\s*(?:<[^>(]*>)?\s*\('
)
# A clause may have a name, and a star where it is of memory.
CLAUSE_HEAD = r"\s*\b(requires|ensures|ghost)\b\*?(?:\s+\w+)?\s*\{"
CLAUSE = re.compile(CLAUSE_HEAD)
TO_CLAUSES = re.compile(rf"(?:\[(?:\[[^\]]*\]|[^\[\]])*\]|[^{{;\[])*?(?={CLAUSE_HEAD}|\{{|;)")
CALL = re.compile(r"(?<![\w.:])((?:\w+::)*\w+)\s*\(")
RT_USE = re.compile(r"(?<!ghost )\buse\s+([^;]+);")
RT_NAMED = re.compile(r"([\w:]+)(?:\s+as\s+(\w+))?\s*(\{)?")
FIELDS = re.compile(r"\bstruct\s+(\w+)[^{;(]*\{([^}]*)\}")
ANTT_FIELD = re.compile(r"^[ \t]+(?:pub\s+)?([^\s:(){}]+)\s*:\s", re.M)
IMPORT = re.compile(r"^[ \t]*(?:(?:ghost|pub|unfoldable)\s+)*use\s+(?P<path>[^\s{};]+)(?:\s*\{(?P<items>[^}]*)\})?(?:\s+as\s+(?P<alias>[^\s;]+))?", re.M)
COMMA = re.compile(r",")
BETWEEN, EQUALS = re.compile(r"\s(?:×|→|∗|∧|⊎|∨|in|do)\s|[;,]|λ[^.]*\.\s"), re.compile(r"\s≡\s")
MARKS = r"(?:(?:unfoldable|abbrev|pub|record|data|axiom)\s+)*"
ASSUMING = re.compile(r"\b(?:axiom|postulate|assume|trust|Axiom)\b")
IMPLICIT = r"(?:\s+\{[^}\n]*\})*"
DECLARED = re.compile(
    rf"^(?:{MARKS}|[ \t]+pub\s+)([^\s:(){{}}]+){IMPLICIT}\s*:(?=\s)|^(?:pub\s+)?(?:record|data)\s+([^\s:(){{}}]+)", re.M
)
# How a term binds names, and how a line of a file does.
IN_TERMS = [
    re.compile(form)
    for form in (
        r"\blet\s+([^\s:=]+)\s*[:=]",
        r"[({]\s*((?:[^\s(){}:=]+\s+)+):\s",
        r"λ\s*((?:[^\s.λ(){}]+\s+)*[^\s.λ(){}]+)\s*\.\s",
    )
]
ON_LINES = [
    re.compile(form, re.M)
    for form in (
        rf"^[ \t]*{MARKS}([^\s:(){{}}]+){IMPLICIT}\s+:\s",
        r"^([^\s:=][^:=\n]*?)\s=(?:\s|$)",
        r"^[ \t]*(?:pub\s+)?mod\s+(\S+)",
    )
]


def spaced(text):
    """The text with every run of white space as one space."""
    return " ".join(text.split())


@cache
def without_comments(text, suffix):
    """The text without its comments, each line where it was; brackets in quoted text are blotted out."""
    if suffix == ".antt":
        return ANTT_COMMENT.sub(lambda m: "\n" * m[0].count("\n"), text)
    return LITERAL_OR_COMMENT.sub(
        lambda m: "\n" * m[0].count("\n") if m[0].startswith("/") else re.sub(r"[(){}\[\]]", " ", m[0]), text
    )


def read(path):
    return without_comments(path.read_text(), path.suffix)


def matching(text, opened):
    """The place of the bracket that closes the one at `opened`."""
    depth = 0
    for i in range(opened, len(text)):
        depth += (text[i] in OPEN) - (text[i] in CLOSE)
        if depth == 0:
            return i
    return len(text)


# -- Functions of .rt files


@dataclass(frozen=True)
class Function:
    path: str  # crate::module::name
    file: Path
    public: bool
    parameters: tuple  # (name, type)
    answers: bool  # it returns something
    requires: tuple
    ensures: tuple
    calls: frozenset  # every whole path that a call in its body may mean


def module_of(file):
    """crates/rounds/src/last.rt holds the module rounds::last, lib.rt and main.rt the crate itself."""
    parts = file.with_suffix("").parts
    at = max(i for i, part in enumerate(parts) if part == "src")
    inside = parts[at + 1:-1] if parts[-1] in ("lib", "main", "mod") else parts[at + 1:]
    return "::".join([parts[at - 1], *inside])


def parameters_of(text):
    """The parameters of a signature as (name, type), in order; `&mut self` is the parameter self of the type `&mut Self`."""
    parts = re.split(r",(?![^\[<(]*[\]>)])", text)
    parts = [re.sub(r"^\s*(&(?:'\w+\s+)?(?:mut\s+)?|mut\s+)?self\s*$", lambda m: f"self: {m[1] or ''}Self", part) for part in parts]
    pairs = (part.partition(":") for part in parts if ":" in part)
    return tuple((re.sub(r"^\s*mut\s+", "", name).strip(), spaced(kind)) for name, _, kind in pairs)


@cache
def functions_in(text, file):
    """The functions of a file, in any layout: the brace of the body may stand on the line of the signature."""
    found, module, brought = [], module_of(file), brought_in(text)
    for head in HEAD.finditer(text):
        after = matching(text, head.end() - 1) + 1
        said = {"requires": [], "ensures": [], "ghost": []}
        here = TO_CLAUSES.match(text, after)
        at = here.end() if here else after
        while clause := CLAUSE.match(text, at):
            closed = matching(text, clause.end() - 1)
            said[clause[1]].append(text[clause.end():closed].strip())
            at = closed + 1
        opened = text.find("{", at)
        body = text[opened:matching(text, opened)] if opened >= 0 and not text[at:opened].strip() else ""
        found.append(
            Function(
                path=f"{module}::{head['name']}",
                file=file,
                public=bool(head["mark"]) and not head["within"],
                parameters=parameters_of(text[head.end():after - 1]),
                answers=bool(here) and "->" in here[0],
                requires=tuple(said["requires"]),
                ensures=tuple(said["ensures"]),
                calls=frozenset(name for called in CALL.findall(body) for name in full_names(called, module, brought)),
            )
        )
    return found


def brought_in(text):
    """The names that the `use` lines of .rt text bring, each with its path, also those in braces."""
    brought = {}

    def bring(text, above):
        for part in filter(None, map(str.strip, outermost(text, COMMA))):
            named = RT_NAMED.match(part)
            path = f"{above}{named[1]}" if named else above
            if named and named[3]:
                bring(part[named.end():matching(part, named.end() - 1)], path)
            elif named:
                path = path.removesuffix("::self")
                brought[named[2] or path.rpartition("::")[2]] = path

    for used in RT_USE.findall(text):
        bring(used, "")
    return brought


def full_names(called, module, brought):
    """What a path in a function's body may mean in its module, the nearest first."""
    crate = module.split("::")[0]
    first, _, rest = called.partition("::")
    if first == "crate":
        return [f"{crate}::{rest}"]
    if first == "super":
        return [f"{module.rpartition('::')[0]}::{rest}"]
    if first == "self":
        return [f"{module}::{rest}"]
    if first in brought:
        called = "::".join(filter(None, [brought[first], rest]))
    return [f"{module}::{called}", called.replace("crate::", f"{crate}::", 1)]


# -- Clauses


def mentions(clause, name):
    """Whether a clause has the name as a word of its own, or a field of it."""
    return re.search(rf"(?<![^\s(){{}}\[\];,«]){re.escape(name)}(?![^\s(){{}}\[\];,».])", clause) is not None


def speaks_of(clause, name):
    """Whether a clause says what a parameter that is lent for writing holds at the end."""
    return re.search(rf"(?<![\w.'])[«]?{re.escape(name)}[»]?\s*\.new\b", clause) is not None


def bare(text):
    """One spelling for a term: white space folded, brackets around the whole of it gone."""
    text = spaced(text)
    while len(text) > 1 and text[0] == "(" and matching(text, 0) == len(text) - 1:
        text = text[1:-1].strip()
    return re.sub(r"\s*([(){}\[\]])\s*", r"\1", text)


def groups(text):
    """The text itself and what stands between each pair of brackets, with the brackets within it left whole."""
    yield text
    for i, c in enumerate(text):
        if c in OPEN:
            yield text[i + 1:matching(text, i)]


def outermost(text, pattern):
    """The text cut where the pattern matches outside all brackets."""
    parts, start, i = [], 0, 0
    while i < len(text):
        if text[i] in OPEN:
            i = matching(text, i) + 1
        elif cut := pattern.match(text, i):
            parts.append(text[start:i])
            start = i = cut.end()
        else:
            i += 1
    return [*parts, text[start:]]


@cache
def equations(clause):
    """The pairs of sides of the equations in a clause, also within brackets and products."""
    parts = (part for group in groups(clause) if "≡" in group for part in outermost(group, BETWEEN))
    sides = (outermost(part, EQUALS) for part in parts)
    return [(bare(pair[0]), bare(pair[1])) for pair in sides if len(pair) == 2]


def fields_in(text):
    """The fields of the structs of .rt text, each with its line."""
    for struct in FIELDS.finditer(text):
        for field in re.finditer(r"(?:^|[,{\n])\s*(?:pub\s+)?(?:ghost\s+)?(\w+)\s*:", struct[2]):
            yield field[1], line_at(text, struct.start(2) + field.start(1))


# -- .antt text


@dataclass(frozen=True)
class Import:
    line: int
    module: str
    item: str  # "*" for a glob, "" for the module itself
    name: str  # what the file calls it


def line_at(text, place):
    return text.count("\n", 0, place) + 1


@cache
def imports_in(text, ghost_alone):
    """Every name that the `use` lines of .antt text bring; of .rt text, the `ghost use` lines alone."""
    brought = []
    for found in IMPORT.finditer(text):
        if ghost_alone and "ghost" not in found[0].split("use")[0]:
            continue
        line, path = line_at(text, found.start("path")), found["path"].removeprefix("package.")
        if found["items"] is None:
            module, _, last = path.rpartition(".")
            is_glob = last == "*"
            brought.append(Import(line, module if is_glob else path, "*" if is_glob else "", found["alias"] or last))
            continue
        for item in filter(None, map(str.strip, re.split(r"[,\n]", found["items"]))):
            written, _, alias = item.partition(" as ")
            within, _, last = written.strip().rpartition(".")
            brought.append(Import(line, ".".join(filter(None, [path.rstrip("."), within])), last, alias.strip() or last))
    return brought


@cache
def declared_in(text):
    """What .antt text declares for others: by a signature at the left edge or with `pub`, as a record or as a data type."""
    return {signed or made for signed, made in DECLARED.findall(text)}


def record_fields_in(text):
    """The fields of the records of .antt text, each with its line."""
    for made in re.finditer(r"^(?:(?:pub|abbrev|unfoldable)\s+)*record\s[^\n]*\bwhere\n((?:[ \t]+[^\n]*\n|\n)*)", text, re.M):
        for field in ANTT_FIELD.finditer(made[1]):
            yield field[1], line_at(text, made.start(1) + field.start(1))


@cache
def bound_in(text, is_clause=False):
    """Each name that .antt text gives a meaning of its own, with its line: by a `let`, a binder or a λ, and in a file by a signature, on the
    left of an equation, or as a module of its own."""
    found = {}
    for form in IN_TERMS if is_clause else IN_TERMS + ON_LINES:
        for match in form.finditer(text):
            for name in match[1].replace("(", " ").replace(")", " ").split():
                found.setdefault(name, line_at(text, match.end(1)))
    return found


@cache
def assumed_in(text):
    """The words by which .antt text assumes something, each with its line."""
    return [(found[0], line_at(text, found.start())) for found in ASSUMING.finditer(text)]
