#!/usr/bin/env python3
"""Brings the wrong edits of crates/*/must-fail and tests/edits of an older commit over to today's spelling.

usage: tools/turn_edits.py plan LANDED WORK        lays out rounds in WORK: clones of LANDED, in each the edits applied that don't touch one another
       tools/turn_edits.py turn WORK [ROUND..]     turns the rounds by port.py and tools/respell.py (some minutes each); round 0 has no edit
       tools/turn_edits.py take LANDED WORK [--write]   compares each edit here with what its round says, and rewrites those that say something else

An edit is a list of pairs, each one line for one line. `take` applies the edit's pairs as they stand here to the file of round 0 (the turned file
without an edit), and wants the very file of the edit's round, as far as the edit's own lines go. Where it isn't, the differing lines are the new pairs.
"""
import difflib, glob, json, os, re, shutil, subprocess, sys

PORT = os.path.join(os.path.dirname(subprocess.run(["rt", "doc"], capture_output=True, text=True, check=True).stdout.strip()), "port", "port.py")
HERE = os.path.dirname(os.path.dirname(os.path.realpath(__file__)))
GAP = 3  # edits of one round stand that many lines apart


def read_edit(text):
    """The comment lines and the pairs (file, old, new)."""
    heads, pairs, file, old = [], [], None, None
    for line in text.split("\n"):
        if line.startswith("file: "):
            file = line[6:]
        elif line.startswith("old: "):
            old = line[5:]
        elif line.startswith("new:"):
            pairs.append((file, old, line[5:]))
        elif line.strip():
            heads.append(line)
    return heads, pairs


def write_edit(path, heads, pairs):
    out, last = list(heads), None
    for f, o, n in pairs:
        if f != last:
            out.append("file: " + f)
            last = f
        out += ["old: " + o, "new: " + n]
    open(path, "w", encoding="utf-8").write("\n".join(out) + "\n")


def all_edits(root):
    """Each edit's path in the repository, and its crate."""
    for p in sorted(glob.glob(root + "/crates/*/must-fail/*.edit") + glob.glob(root + "/tests/edits/*/*.edit")):
        rel = os.path.relpath(p, root)
        yield rel, rel.split("/")[1 if rel.startswith("crates/") else 2]


def apply_pairs(root, crate, pairs, texts=None):
    """The files after the pairs. None where an old text doesn't stand exactly once."""
    texts = {} if texts is None else texts
    for f, o, n in pairs:
        path = f"crates/{crate}/{f}"
        if path not in texts:
            full = os.path.join(root, path)
            if not os.path.exists(full):
                return None
            texts[path] = open(full, encoding="utf-8").read()
        if texts[path].count(o) != 1:
            return None
        texts[path] = texts[path].replace(o, n)
    return texts


def plan(landed, work):
    os.makedirs(work, exist_ok=True)
    rounds = [{"edits": [], "touched": set(), "files": {}}]
    for rel, crate in all_edits(landed):
        _, pairs = read_edit(open(os.path.join(landed, rel), encoding="utf-8").read())
        texts = apply_pairs(landed, crate, pairs)
        assert texts is not None, rel
        touched, lines = set(), {}
        for path, new in texts.items():
            a, b = open(os.path.join(landed, path), encoding="utf-8").read().split("\n"), new.split("\n")
            assert len(a) == len(b), rel
            lines[path] = {i: b[i] for i in range(len(a)) if a[i] != b[i]}
            touched |= {(path, k) for i in lines[path] for k in range(i - GAP, i + GAP + 1)}
        for r in rounds[1:]:
            if not r["touched"] & touched:
                break
        else:
            r = {"edits": [], "touched": set(), "files": {}}
            rounds.append(r)
        r["touched"] |= touched
        r["edits"].append({"edit": rel, "crate": crate, "lines": {p: sorted(ls) for p, ls in lines.items()}})
        for p, ls in lines.items():
            r["files"].setdefault(p, {}).update(ls)
    for k, r in enumerate(rounds):
        to = os.path.join(work, f"r{k}")
        subprocess.run(["git", "clone", "-q", landed, to], check=True)
        for key, word in (("user.name", "x"), ("user.email", "x@x")):
            subprocess.run(["git", "-C", to, "config", key, word], check=True)
        shutil.rmtree(os.path.join(to, "tests"))
        for d in glob.glob(to + "/crates/*/must-fail"):
            shutil.rmtree(d)
        for p, ls in r["files"].items():
            t = open(os.path.join(to, p), encoding="utf-8").read().split("\n")
            for i, line in ls.items():
                t[i] = line
            open(os.path.join(to, p), "w", encoding="utf-8").write("\n".join(t))
        subprocess.run(["git", "-C", to, "add", "-A"], check=True)
        subprocess.run(["git", "-C", to, "commit", "-q", "-m", f"round {k}"], check=True)
        print(f"round {k}: {len(r['edits'])} edits")
    json.dump([r["edits"] for r in rounds], open(os.path.join(work, "plan.json"), "w"), indent=1)


def turn(work, which):
    port = os.path.join(work, "port.py")  # a copy, whose log folder is its own
    text = open(PORT, encoding="utf-8").read()
    text = text.replace('HERE = os.path.dirname(os.path.realpath(__file__))', f'HERE = "{os.path.dirname(PORT)}"')
    for k in which:
        root = os.path.join(work, f"r{k}")
        open(port, "w", encoding="utf-8").write(re.sub(r'SAID = ".*"', f'SAID = "{work}/said{k}"', text))
        with open(os.path.join(work, f"turn{k}.log"), "w") as log:
            code = subprocess.run([sys.executable, port], cwd=root, stdout=log, stderr=subprocess.STDOUT).returncode
            print(f"round {k}: port.py {code}", flush=True)
            subprocess.run([sys.executable, os.path.join(HERE, "tools/respell.py")], cwd=root, stdout=log, stderr=subprocess.STDOUT)
        open(os.path.join(work, f"done{k}"), "w").close()


def changes(a, b):
    """The differing blocks of two lists of lines."""
    return [op for op in difflib.SequenceMatcher(None, a, b, autojunk=False).get_opcodes() if op[0] != "equal"]


def plain(line):
    """A line without what the turn of the spelling touches."""
    return re.sub(r"[^a-z0-9]", "", line.lower())


def places(a, b):
    """For each line of a, about where it stands in b."""
    at, last = {}, (-1, -1)
    for tag, i1, i2, j1, j2 in difflib.SequenceMatcher(None, [plain(x) for x in a], [plain(x) for x in b], autojunk=False).get_opcodes():
        for i in range(i1, i2):
            at[i] = j1 + (i - i1) if tag == "equal" else min(j1 + (i - i1) * max(1, j2 - j1) // max(1, i2 - i1), max(j1, j2 - 1))
    return at


def shortest(old, new, text, short=140):
    """The pair (old, new) of two lines: the whole lines where they are short, and else what differs with as many words beside it as stand once in text."""
    # an import that gets more names
    had, has = (re.fullmatch(r"(use [\w.]+\.\{)(.*)\}", x) for x in (old, new))
    if had and has and had[1] == has[1] and text.count(had[1]) == 1:
        names, more = had[2].split(", "), has[2].split(", ")
        if set(names) < set(more):
            return had[1] + names[0], had[1] + ", ".join([x for x in more if x not in names] + names[:1])
    if len(old.strip()) <= short and text.count(old.strip()) == 1 and new.strip():
        return old.strip(), new.strip()
    a, b = (re.findall(r"[\w'₀-₉-]+|\s+|.", x) for x in (old, new))
    p = 0
    while p < min(len(a), len(b)) and a[p] == b[p]:
        p += 1
    q = 0
    while q < min(len(a), len(b)) - p and a[-1 - q] == b[-1 - q]:
        q += 1
    lo, hi = p, len(a) - q
    turn_left = False
    while True:
        piece = "".join(a[lo:hi])
        if piece.strip() and piece == piece.strip() and len(piece) >= min(24, len(old.strip())) and text.count(piece) == 1:
            return piece, "".join(a[lo:p]) + "".join(b[p:len(b) - q]) + "".join(a[len(a) - q:hi])
        if lo == 0 and hi == len(a):
            return None
        turn_left = not turn_left
        if (turn_left and lo > 0) or hi == len(a):
            lo -= 1
        else:
            hi += 1


def same(a, b):
    """Whether two sets of files differ in no more than the layout and the order of names in an import."""

    def bare(text):
        text = re.sub(r"(?m)^(use [\w.]+\.)\{(.*)\}$", lambda m: m[1] + "{" + ", ".join(sorted(m[2].split(", "))) + "}", text)
        return "".join(text.split()).replace(",}", "}")

    return a is not None and b is not None and {p: bare(x) for p, x in a.items()} == {p: bare(x) for p, x in b.items()}


def take(landed, work, write):
    rounds = json.load(open(os.path.join(work, "plan.json")))
    count = {}
    for k, edits in enumerate(rounds):
        if not os.path.exists(os.path.join(work, f"done{k}")):
            count["not turned yet"] = count.get("not turned yet", 0) + len(edits)
            continue
        base, root = os.path.join(work, "r0"), os.path.join(work, f"r{k}")
        owned, stray = {}, []  # of each edit: path -> blocks
        for path in sorted({p for e in edits for p in e["lines"]}):
            was, a, b = (open(os.path.join(x, path), encoding="utf-8").read().split("\n") for x in (landed, base, root))
            at = places(was, a)
            lines = [(at[i], n) for n, e in enumerate(edits) for i in e["lines"].get(path, [])]
            for op in changes(a, b):
                near = min(lines, key=lambda x: 0 if op[1] <= x[0] < op[2] else min(abs(op[1] - x[0]), abs(op[2] - 1 - x[0])))
                far = 0 if op[1] <= near[0] < op[2] else min(abs(op[1] - near[0]), abs(op[2] - 1 - near[0]))
                if far > 4:
                    stray.append((path, op[1], a[op[1] : op[2]], b[op[3] : op[4]]))
                else:
                    owned.setdefault(near[1], {}).setdefault(path, []).append((op[1], op[2], b[op[3] : op[4]]))
        for path, i, x, y in stray:
            print(f"stray: round {k} {path}:{i + 1}\n  - " + "\n  - ".join(x) + "\n  + " + "\n  + ".join(y))
        for n, e in enumerate(edits):
            want = {}
            for path, blocks in owned.get(n, {}).items():
                a = open(os.path.join(base, path), encoding="utf-8").read().split("\n")
                for i, j, new in reversed(blocks):
                    a[i:j] = new
                want[path] = "\n".join(a)
            here = os.path.join(HERE, e["edit"])
            heads, pairs = read_edit(open(here, encoding="utf-8").read())
            got = apply_pairs(base, e["crate"], pairs)
            kind = "same" if same(got, want) and want else "nothing" if not want else "no fit" if got is None else "other"
            if kind in ("no fit", "other"):
                fresh = []
                for path, blocks in owned[n].items():
                    a = open(os.path.join(base, path), encoding="utf-8").read().split("\n")
                    text = "\n".join(a)
                    for i, j, new in blocks:
                        old = a[i:j]
                        if len(old) != len(new):
                            kind = "re-laid"
                            break
                        for o, w in zip(old, new):
                            if o != w:
                                pair = shortest(o, w, text)
                                if pair is None:
                                    kind = "not unique"
                                    break
                                fresh.append((path.split("/", 2)[2], *pair))
                print(f"{kind}: {e['edit']}")
                if kind in ("no fit", "other"):
                    for f, o, w in pairs:
                        print(f"    was  {f}: {o}\n         {' ' * len(f)}  {w}")
                    for f, o, w in fresh:
                        print(f"    now  {f}: {o}\n         {' ' * len(f)}  {w}")
                    if not same(apply_pairs(base, e["crate"], fresh), want):  # texts that change places go by way of a mark
                        marks = [f"MARK{i}" for i in range(len(fresh) - 1)] + [fresh[-1][2]]
                        fresh = [(f, o, m) for (f, o, _), m in zip(fresh, marks)] + [(f, m, w) for (f, _, w), m in zip(fresh[:-1], marks)]
                    if not same(apply_pairs(base, e["crate"], fresh), want):
                        print("    NOT the same")
                        kind = "by hand"
                    elif write:
                        write_edit(here, heads, fresh)
                else:
                    for path, blocks in owned[n].items():
                        for i, j, new in blocks:
                            print(f"    {path}:{i + 1}\n    - " + "\n    - ".join(a[i:j]) + "\n    + " + "\n    + ".join(new))
            elif kind == "nothing":
                print(f"nothing: {e['edit']}: the turned files don't differ")
            count[kind] = count.get(kind, 0) + 1
    print(count)


if __name__ == "__main__":
    verb = sys.argv[1] if len(sys.argv) > 1 else ""
    if verb == "plan":
        plan(os.path.realpath(sys.argv[2]), os.path.realpath(sys.argv[3]))
    elif verb == "turn":
        work = os.path.realpath(sys.argv[2])
        n = len(json.load(open(os.path.join(work, "plan.json"))))
        turn(work, [int(x) for x in sys.argv[3:]] or range(n))
    elif verb == "take":
        take(os.path.realpath(sys.argv[2]), os.path.realpath(sys.argv[3]), "--write" in sys.argv)
    else:
        print(__doc__)
        raise SystemExit(2)
