#!/usr/bin/env python3
"""Respells this repository's own definitions and lemmas as today's Rattle spells names.

usage: respell.py [--check] [--map FILE]      at the top of the repository, after port.py, once

Words are in snake case, types and modules in camel case. A dash stays only between two names (a definition, a type, a word of the
library); a plain word is added with an underscore. Functions, fields and constants of src/, exported names, strings and inputs keep
their names. It rewrites crates/**/*.antt, the ghost parts of crates/**/*.rt, crates/*/must-fail/*.edit and tests/edits/**/*.edit, and
prints names that fall together. --check writes nothing; --map writes the old and new names as lines of two columns.
"""
import collections, glob, os, re, subprocess, sys

# the kit's library, beside the page that `rt doc` names
KIT = os.path.join(os.path.dirname(subprocess.run(["rt", "doc"], capture_output=True, text=True, check=True).stdout.strip()), "rattle")
WORD = re.compile(r"[A-Za-z_«][\w₀-₉'′»·-]*")
DECL = re.compile(r"^[ ]*(?:(?:pub|abbrev|unfoldable|opaque)[ ]+)*(record |data |ruleset )?([A-Za-z][\w₀-₉'′-]*)[ ]*(?:[:({]| [A-Za-z(\[{].*[:=])")
FIELD = re.compile(r"^[ ]+(?:pub )([a-z][\w₀-₉'′-]*) :")
KEYWORDS = set("pub abbrev unfoldable opaque record data ruleset use mod module where let in elim if then else unfolding search omega rw simp cc grind refl λ absurd".split())


def snake(part):
    part = re.sub(r"([a-z0-9])([A-Z])(?=[A-Z][a-z])", r"\1_\2", part)  # asATape
    part = re.sub(r"([A-Z])([A-Z][a-z])", r"\1_\2", part)
    part = re.sub(r"([a-z0-9])([A-Z])", r"\1_\2", part)
    return part.lower()


def is_camel(part):
    return bool(re.match(r"^[a-z][a-z0-9]*[A-Z]", part)) or bool(re.match(r"^[a-z]\w*[a-z0-9][A-Z]", part))


def files():
    for ext in ("antt", "rt"):
        yield from sorted(p for p in glob.glob(f"crates/**/*.{ext}", recursive=True) if "/out/" not in p)


def own_names():
    """Names that specs/ and the files of lemmas declare, with their files, and the types. A function's own proof is rewritten anyway."""
    names, types = {}, set()
    for p in files():
        if not p.endswith(".antt") or p.endswith("/Proof.antt"):
            continue
        for line in open(p, encoding="utf-8"):
            m = DECL.match(line)
            if m and m[2] not in KEYWORDS and not line.lstrip().startswith(("use ", "pub use", "mod ", "pub mod", "--")):
                if m[2][0].isupper():
                    types.add(m[2])
                else:
                    names.setdefault(m[2], set()).add(p)
    return names, types


def source_names():
    """Names of src: functions, fields, parameters, locals and constants keep their spelling."""
    found = set()
    for p in glob.glob("crates/*/src/**/*.rt", recursive=True):
        found |= set(re.findall(r"\b[a-z_]\w*\b", open(p, encoding="utf-8").read()))
    return found


def library_names():
    found = set()
    for top in ("core", "std", "std_alloc", "std_collections", "std_heap", "std_io", "logic", "antt"):
        for p in glob.glob(f"{KIT}/{top}/**/*.antt", recursive=True):
            for line in open(p, encoding="utf-8", errors="replace"):
                m = DECL.match(line)
                if m:
                    found.add(m[2])
    return found


def main():
    check = "--check" in sys.argv
    names, types = own_names()
    library = library_names()
    words = {n for n in names if "-" not in n}                       # definitions with a plain name
    plain = {snake(n) if is_camel(n) else n for n in words} | library | types
    functions = set(re.findall(r"\bfn (\w+)", "".join(open(p, encoding="utf-8").read() for p in glob.glob("crates/*/src/**/*.rt", recursive=True))))
    table = {}
    defs = {n for n, ps in names.items() if any("/specs/" in p for p in ps)}
    def_news = {snake(n) for n in defs}
    joiners = types | {snake(n) for n in defs} | {n for n in library if len(n) > 3}

    def joined(parts):
        """A dash joins two names; a plain word is added with an underscore."""
        out = parts[0]
        for a, b in zip(parts, parts[1:]):
            names_both = (a in types or (a in joiners and "_" in a) or a in LISTS) and (b in types or (b in joiners and "_" in b) or b in LISTS)
            out += ("-" if names_both else "_") + b
        return out

    LISTS = set("length take drop set sets map replicate get_or append reverse tabulate".split())
    for n in names:
        if n in library:
            continue
        new = joined([snake(x) if is_camel(x) else x for x in n.split("-")])
        if n not in defs and new in def_news:
            new += "_lem"
        if new != n:
            table[n] = new
    together = collections.defaultdict(list)
    for n in names:
        together[table.get(n, n)].append(n)
    for new, olds in together.items():
        if len(olds) > 1:
            for n in olds:
                if n not in defs and not is_camel(n):
                    table[n] = new + "_lem"

    # fields of records, and anything in lower camel case that is left
    def turn_word(w):
        if w in table:
            return table[w]
        if w in library:
            return w
        parts = w.split("-")
        if any(is_camel(x) for x in parts):
            new = "-".join(snake(x) if is_camel(x) else x for x in parts)
            table[w] = new
            return new
        return w

    changed = 0
    edits = sorted(glob.glob("crates/*/must-fail/*.edit")) + sorted(glob.glob("tests/edits/**/*.edit", recursive=True))
    for p in list(files()) + edits:
        text = open(p, encoding="utf-8").read()
        imported = set(WORD.findall("\n".join(l for l in text.split("\n") if l.startswith("use "))))
        own_proof = p.endswith("/Proof.antt")

        def word(m):
            w = m[0]
            if own_proof and table.get(w, "").endswith("_lem") and w not in imported:
                return w  # a step or a parameter of the function, which has the name of a lemma
            return turn_word(w)
        if p.endswith(".rt"):
            # only ghost use lines and clauses: elsewhere Rust's names have no capitals inside
            out = []
            for line in text.split("\n"):
                ghost = line.lstrip().startswith(("ghost use", "requires", "ensures")) or "⌜" in line
                out.append(WORD.sub(word, line) if ghost else line)
            new = "\n".join(out)
        else:
            new = WORD.sub(word, text)
        if new != text:
            changed += 1
            if not check:
                open(p, "w", encoding="utf-8").write(new)
    # names that fall together
    by_new = collections.defaultdict(set)
    for n in list(names) + list(table):
        by_new[table.get(n, n)].add(n)
    for new, olds in sorted(by_new.items()):
        if len(olds) > 1:
            print("together:", new, "<-", ", ".join(sorted(olds)))
        if new in library and new not in olds:
            print("library has it too:", new, "<-", ", ".join(sorted(olds)))
    print(f"respell: {len(table)} names, {changed} files")
    if "--map" in sys.argv:
        with open(sys.argv[sys.argv.index("--map") + 1], "w", encoding="utf-8") as f:
            for a, b in sorted(table.items()):
                f.write(f"{a} {b}\n")


if __name__ == "__main__":
    main()
