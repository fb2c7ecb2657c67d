#!/usr/bin/env python3
"""Lists the places of src/ that have an older form where today's Rattle has a plainer one, for docs/DESIGN-PASS.md: a line for each place under
its point and rule, and the counts at the end. The table of products is left out: it is numbers alone.
usage: tools/forms.py [COMMIT] [--counts]    of a commit, or of the files as they are"""
import difflib
import glob
import re
import subprocess
import sys
from collections import defaultdict

SKIP = "crates/products/"


def files(commit):
    if commit:
        names = subprocess.run(["git", "ls-tree", "-r", "--name-only", commit, "crates"], check=True, capture_output=True, text=True).stdout.split()
        names = [n for n in names if re.fullmatch(r"crates/\w+/src/.*\.rt", n)]
        return {n: subprocess.run(["git", "show", f"{commit}:{n}"], check=True, capture_output=True, text=True).stdout for n in names if SKIP not in n}
    return {n: open(n, encoding="utf-8").read() for n in sorted(glob.glob("crates/*/src/**/*.rt", recursive=True)) if SKIP not in n}


# A function: what stands before its body, and the body.
class Function:
    def __init__(self, name, line, head, body):
        self.name, self.line, self.head, self.body = name, line, head, body
        answer = re.search(r"\)\s*->\s*([^\n{]+?)\s*(?:\n|\{|$)", head)
        self.answer = answer.group(1) if answer else "()"
        within = re.search(r"\((.*?)\)\s*(?:->|\n|\{|$)", head, re.S)
        self.parameters = [p.strip() for p in re.findall(r"(\w+: [^,()]*(?:\[[^]]*\])?[^,()]*)", within.group(1))] if within else []
        self.requires = re.findall(r"requires(?: \w+)? \{(.*)\}", head)
        self.ensures = re.findall(r"ensures(?: \w+)? \{(.*)\}", head)


def functions(text):
    found = []
    for m in re.finditer(r"^( *)(?:pub )?(?:extern \"C\" )?fn (\w+)", text, re.M):
        indent = m.group(1)
        rest = text[m.start():]
        end = re.search(r"^%s\}$" % indent, rest, re.M)
        one = rest[: end.end()] if end else rest
        opening = re.search(r"(^%s\{$)|(\{$)" % indent, one, re.M)
        cut = opening.start() if opening else len(one)
        found.append(Function(m.group(2), text.count("\n", 0, m.start()) + 1, one[:cut], re.sub(r"//.*", "", one[cut:])))
    return found


# Tokens with each name as n and each number as 0, so that functions which differ in these alone are the same.
def shape(body):
    words = re.findall(r"[A-Za-z_]\w*|\d\w*|[^\s\w]", body)
    keep = {"let", "mut", "if", "else", "return", "while", "for", "in", "match", "as", "true", "false"}
    return [w if w in keep or not re.match(r"\w", w) else ("0" if w[0].isdigit() else "n") for w in words]


def facts(clause):
    for fact in re.split(r"×", clause):
        fact = re.sub(r"«|»", "", fact.strip().strip("()").strip())
        fact = re.sub(r"\.(?:now|old|new)\b", "", fact)
        if fact:
            yield fact


def places(tree):
    out = defaultdict(list)
    repeated, together, alike = defaultdict(list), defaultdict(list), []
    for name, text in tree.items():
        crate = name.split("/")[1]
        for m in re.finditer(r"^(?:pub )?(enum|struct) (\w+)[^{;]*\{(.*?)^\}", text, re.M | re.S):
            kind, title, inside = m.groups()
            at = f"{name}:{text.count(chr(10), 0, m.start()) + 1} {title}"
            if kind == "enum":
                bare = re.findall(r"^ *(\w+)(?: = \d+)?,", inside, re.M)
                holding = re.findall(r"^ *(\w+)[({]", inside, re.M)
                if holding and len(bare) + len(holding) <= 3:
                    out["1 an enum of the shape of Option or Result"].append(at)
            elif re.search(r": bool,|number: u\d+,", inside):
                out["1 a struct with a flag or a refusal's number beside its values"].append(at)
        for group in re.findall(r"(?:^pub const \w+: u(?:8|32|64) = \d+;\n+){2,}", text, re.M):
            out["1 constants that number kinds or refusals"].append(f"{name} {len(re.findall('const', group))} of them")
        for f in functions(text):
            at = f"{name}:{f.line} {f.name}"
            said = " ".join(f.ensures)
            if f.answer in ("u32", "u64") and re.search(r"first_of|when_done|number = result|stale_as|shape_rules", said):
                out["1 a function that answers a refusal or a rule by its number"].append(at)
            before = text[: text.find(f.head)].rsplit("\n\n", 1)[-1]
            if f.answer == "usize" and re.search(r"or n where", before):
                out["1 a number that stands for none"].append(at)
            for m in re.finditer(r"^ *while ", f.body, re.M):
                out["3 a while over an index or over what is left of a slice"].append(at)
            for m in re.finditer(r"^( *)for (\w+) in [^\n]*\.\.[^\n]*\{(.*?)^\1\}", f.body, re.M | re.S):
                if re.search(r"\[[^]]*\b%s\b[^]]*\]" % m.group(2), m.group(3)):
                    out["3 a for whose index reads a list"].append(at)
            for m in re.finditer(r"\bas (?:u8|u16|u32|u64|usize|i64)\b", f.body):
                out["4 a conversion by `as`"].append(at)
            for m in re.finditer(r"std::num::wrapping_\w+", f.body):
                out["4 a wrapping sum as a function and no method"].append(at)
            for m in re.finditer(r"\((\w+) << \w+\) \| \(\1 >> \w+\)", f.body):
                out["4 a rotation by two shifts"].append(at)
            if re.search(r"^\s*\{\s*(?:let [^\n]*\n\s*)*[A-Z]\w+ \{[^{}]*\}\s*\}\s*$", f.body) and len(f.parameters) == 1 and not re.search(r"[+*^&|<>%]|\w\(", f.body):
                out["4 a copy of one struct's fields into another"].append(at)
            for clause in f.requires:
                for fact in facts(clause):
                    repeated[crate, fact].append(f.name)
            names = tuple(p.split(":")[0] for p in f.parameters)
            for a, b in zip(names, names[1:]):
                if crate not in ("luffa", "luffa_c", "luffa_columns", "luffa_columns_c"):
                    together[crate, a, b].append(f.name)
            for p, q in zip(f.parameters, f.parameters[1:]):
                if "[" in p and re.fullmatch(r"(?:n|count): usize", q) and crate not in ("luffa", "luffa_c", "luffa_columns", "luffa_columns_c"):
                    out["6 a list with a count beside it"].append(at)
            alike.append((crate, at, shape(f.body)))
    for (crate, fact), names in sorted(repeated.items()):
        if len(names) >= 3:
            out["5 a fact in the requires of three functions or more of a crate"].append(f"{crate}: {fact} ({len(names)}: {' '.join(names)})")
    for (crate, a, b), names in sorted(together.items()):
        if len(names) >= 3:
            out["5 two parameters side by side in three functions or more of a crate"].append(f"{crate}: {a}, {b} ({len(names)}: {' '.join(names)})")
    for i, (crate, at, one) in enumerate(alike):
        if len(one) < 40 or crate in ("luffa_c", "luffa_columns_c"):
            continue
        for other, there, two in alike[i + 1:]:
            if len(two) >= 40 and other not in ("luffa_c", "luffa_columns_c") and 0.7 < len(one) / len(two) < 1.43:
                if difflib.SequenceMatcher(None, one, two, autojunk=False).ratio() >= 0.9:
                    out["2 two functions of nine tenths the same shape"].append(f"{at} ~ {there}")
    named, made = defaultdict(list), defaultdict(list)
    for name, text in tree.items():
        crate = name.split("/")[1]
        if crate in ("luffa_c", "luffa_columns_c"):
            continue
        for f in functions(text):
            # inject3, inject4; turn, turn_whole; go_on, go_on_alone
            named[re.sub(r"\d+$|_whole$|_alone$", "", f.name), crate if re.search(r"\d$", f.name) else ""].append((f.name, f"{name}:{f.line}"))
        for m in re.finditer(r"^struct (\w+) \{(.*?)^\}", text, re.M | re.S):
            made[re.sub(r"\s+", " ", m.group(2))].append(f"{name}:{text.count(chr(10), 0, m.start()) + 1} {m.group(1)}")
    for (word, crate), some in sorted(named.items()):
        if len({n for n, _ in some}) >= 2:
            out["2 functions whose names differ in a number, in _whole or in _alone"].append(", ".join(f"{at} {n}" for n, at in some))
    for some in made.values():
        if len(some) >= 2:
            out["2 a struct declared in two places"].append(", ".join(some))
    for name, text in tree.items():
        for m in re.finditer(r"\bdyn \w+|Box<|: fn\(", text):
            out["7 a table of functions, a dyn value"].append(f"{name}:{text.count(chr(10), 0, m.start()) + 1}")
    return out


def main():
    words = [w for w in sys.argv[1:] if not w.startswith("--")]
    found = places(files(words[0] if words else None))
    for rule in sorted(found):
        print(f"{rule}: {len(found[rule])}")
        if "--counts" not in sys.argv:
            for place in found[rule]:
                print(f"    {place}")


if __name__ == "__main__":
    main()
