#!/usr/bin/env python3
"""Counts the places of docs/DESIGN-PASS.md's points in crates/*/src: tools/forms.py [--list] [COMMIT]

Of the files as they stand here, or of a commit. It finds forms by their text, and a reader says which of them is a place; with --list it names each.
"""
import collections, re, subprocess, sys


# the forms that one line shows
LINES = {
    "1 enums": r"\benum \w+",
    "1 numbers for kinds (parameters and fields)": r"\b(kind|mark|show|life|slide|phase|cause|direction|side): u\d+",
    "1 flags in structs": r"^\s+(pub )?\w+: bool,",
    "3 loops by while and loop": r"\b(while|loop)\b",
    "4 conversions and tests by hand (functions)": r"\bfn (\w+_number|number_of|\w+_code|\w*word_of|wide|flag_word|record_of|side_of|\w+_answer|digit_of|is_half_cent|is_questions)\b",
    "4 casts": r" as [ui](\d+|size)\b",
    "6 arrays": r"= \[[^;\]]+; \w+\];|-> \[\w+; \w+\]",
    "7 tests against a number": r"\bif \w+(\.\w+)? == \d+ \{",
}


def sources(commit):
    """The files of crates/*/src and crates/*/proofs with their text."""
    if commit:
        names = subprocess.run(["git", "ls-tree", "-r", "--name-only", commit, "crates"], capture_output=True, text=True, check=True).stdout.split()
    else:
        names = subprocess.run(["git", "ls-files", "crates"], capture_output=True, text=True, check=True).stdout.split()
    for name in names:
        if re.search(r"/src/.*\.rt$|/proofs/.*\.antt$", name):
            if commit:
                yield name, subprocess.run(["git", "show", f"{commit}:{name}"], capture_output=True, text=True, check=True).stdout
            else:
                yield name, open(name, encoding="utf-8").read()


def code(text):
    """The lines that are code: no comments, no imports, no ghost items."""
    for at, line in enumerate(text.split("\n"), 1):
        if not re.match(r"\s*(//|use |ghost )", line):
            yield at, line


def functions(text):
    """The functions of a file: name, parameters, and the facts of their requires clauses."""
    for found in re.finditer(r"\bfn (\w+)(?:<[^(]*>)?\((.*?)\)(?: -> [^\n{]*)?\n?((?:\s+(?:requires|ensures)[^\n]*\n)*)", text, re.S):
        facts = []
        for clause in re.findall(r"requires(?: \w+)? \{ (.*) \}", found[3]):
            facts += [fact.strip().strip("()") for fact in clause.split(" × ")]
        yield found[1], [p.strip() for p in found[2].split(",") if ":" in p], facts


def main():
    words = [a for a in sys.argv[1:] if a != "--list"]
    commit = words[0] if words else None
    forms = collections.defaultdict(list)
    facts, groups = collections.defaultdict(list), collections.defaultdict(list)
    for name, text in sources(commit):
        if "/proofs/" in name:
            if name.endswith("/Answers.antt"):
                for found in re.finditer(r"^\s*pub (\S+) : goal", text, re.M):
                    forms["8 answers"].append(f"{name}: {found[1]}")
            continue
        for at, line in code(text):
            where = f"{name}:{at}: {line.strip()}"
            for what, pattern in LINES.items():
                if re.search(pattern, line):
                    forms[what].append(where)
        for function, parameters, asked in functions(text):
            for fact in set(asked):
                facts[re.sub(r"\.(now|old|entry)\b", "", fact)].append(f"{name}: {function}")
            for i, one in enumerate(parameters):
                for other in parameters[i + 1 :]:
                    groups[f"{one}, {other}"].append(f"{name}: {function}")
    for what, found in (("5 facts asked by three functions or more", facts), ("5 pairs of parameters of three functions or more", groups)):
        for fact, at in sorted(found.items()):
            if len(at) > 2:
                forms[what].append(f"{fact}  ({len(at)}: {'; '.join(at)})")
    for what in sorted(forms):
        print(f"{what}: {len(forms[what])}")
        if "--list" in sys.argv:
            print("\n".join("    " + place for place in forms[what]))


main()
