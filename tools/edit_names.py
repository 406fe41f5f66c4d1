#!/usr/bin/env python3
"""Lets a wrong edit of code be refused for what it means, and not for a name that it takes away: tools/edit_names.py [--write] CRATE EDIT..

Goals and facts are named after the code's conditions (`returns-then-time-before`, `if-not-is_legal`), so an edit that turns a condition takes away names that proof
files cite. This checks the crate with the edit, in a copy. Where the check misses such names, it gives the proof file the names that stand there now, and
checks again. With --write the edit gets pairs that do so. Run it where `rt check` proved the crate. It prints what the last check still refuses.
"""
import os, re, shutil, subprocess, sys, tempfile

sys.dont_write_bytecode = True
sys.path.insert(0, os.path.dirname(os.path.realpath(__file__)))
from turn_edits import HERE, apply_pairs, read_edit, shortest, write_edit

GONE = re.compile(r"^(?:\./)?(proofs/\S+?):\d+:\d+: error: .*?(?:has no `([^`]+)` that can be named|has no field `([^`]+)`)")
NEAR = re.compile(r"\((?:nearest|names in it that begin alike): ([^)]*)\)")
OPEN = re.compile(r"^note: \S+: it is not proved .*?\(`([^`]+)`\)")
WORD = r"(?<![\w'₀-₉-])%s(?![\w'₀-₉-])"


def words(name):
    """The parts of a made name, without those that say how a condition stands."""
    return sorted(x for x in re.split(r"[-_.]", name) if x != "not" and not re.fullmatch(r"(lt|le|gt|ge|eq|ne)\d*|\d+", x))


def check(crate, texts):
    with tempfile.TemporaryDirectory(prefix="edit-names-") as room:
        subprocess.run(f"tar -c --exclude='crates/*/out' --exclude='crates/*/must-fail' crates crates.txt $(ls HANDLES 2>/dev/null) | tar -x -C {room}", shell=True, cwd=HERE, check=True)
        for path, text in texts.items():
            open(f"{room}/{path}", "w", encoding="utf-8").write(text)
        r = subprocess.run(["rt", "check"], cwd=f"{room}/crates/{crate}", stdout=subprocess.PIPE, stderr=subprocess.STDOUT, text=True, errors="replace")
        return r.stdout.split("\n")


def renamed(lines, texts, crate):
    """What stands for the names that the check misses: (file, old name, new name)."""
    goals = [m[1] for m in map(OPEN.match, lines) if m]
    found = set()
    for line in lines:
        m = GONE.match(line)
        if not m:
            continue
        old = m[2] or m[3]
        near = NEAR.search(line)
        offered = [x.strip().strip("`").lstrip(".") for x in near[1].split(",")] if near else []
        offered = (goals if m[2] else []) + offered
        like = [x for x in offered if words(x) == words(old)] or [x for x in offered if m[2] and x in goals and x.split("-")[:2] == old.split("-")[:2]]
        if like and like[0] != old:
            found.add((m[1], old, like[0]))
    return sorted(found)


def pairs_of(file, was, now):
    """Pairs of pieces of lines that turn one text into the other, each old piece standing once."""
    pairs, text = [], was
    for o, n in zip(was.split("\n"), now.split("\n")):
        if o == n:
            continue
        a, b = shortest(o, n, text, 0) or (o.strip(), n.strip())
        if text.count(a) != 1:
            return None
        pairs.append((file, a, b))
        text = text.replace(a, b)
    return pairs if text == now else None


def main(argv):
    write = "--write" in argv
    crate, *edits = [x for x in argv if x != "--write"]
    for edit in edits:
        heads, pairs = read_edit(open(edit, encoding="utf-8").read())
        texts = apply_pairs(HERE, crate, pairs)
        turned = {}
        for _ in range(4):
            lines = check(crate, texts)
            names = renamed(lines, texts, crate)
            if not names:
                break
            for file, old, new in names:
                path = f"crates/{crate}/{file}"
                if path not in texts:
                    texts[path] = open(f"{HERE}/{path}", encoding="utf-8").read()
                    turned[path] = texts[path]
                texts[path] = re.sub(WORD % re.escape(old), new, texts[path])
                print(f"    {file}: {old} -> {new}")
        gone = [x for x in lines if GONE.match(x)]
        meant = [x for x in lines if re.search(r": error: ", x) and x not in gone or re.search(r"it is not proved|may be false", x)]
        print(f"{os.path.basename(edit)}: {'REFUSED' if any(x.startswith('logic=not-proved') for x in lines) else 'proved' if any(x.startswith('logic=proved') for x in lines) else 'no verdict'}, {len(gone)} names missing")
        for x in (gone + meant)[:8]:
            print("    " + x[:420])
        if turned and write:
            more = []
            for path, was in turned.items():
                got = pairs_of(path.split("/", 2)[2], was, texts[path])
                if got is None:
                    print("    by hand: a line of " + path + " that changes does not stand once")
                    more = None
                    break
                more += got
            if more:
                write_edit(edit, heads, pairs + more)
        sys.stdout.flush()


if __name__ == "__main__":
    main(sys.argv[1:])
