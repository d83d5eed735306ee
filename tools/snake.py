#!/usr/bin/env python3
"""Spells the repository's own definitions, lemmas, fields and locals of antt in snake case: keyRooms and key-rooms become key_rooms.

usage: tools/snake.py            in crates/: .antt files, clauses and ghost items of .rt files
       tools/snake.py --pages    the same names where README.md and docs/ have them between backticks

It also calls specs/Contracts.antt of two crates specs/Clauses.antt, since Rattle makes a module `contracts` there.
Names of the library and names that Rattle makes for goals keep their spelling. It names what would fall together, and then writes nothing.
"""

import collections
import os
import re
import sys

TOP = os.path.dirname(os.path.dirname(os.path.realpath(__file__)))
TOKEN = re.compile(r"--[^\n]*|//[^\n]*|\"(?:[^\"\\]|\\.)*\"|b?'(?:[^'\\\n]|\\.)'(?![\w])|«[^»]*»|[^\s(){}.;,@\"«»\[\]\\]+")
DECLARED = re.compile(
    r"^\s*(?:(?:pub|abbrev|unfoldable|ruleset)\s+)*([^\s(){}.;,@\"«»\[\]\\:]+)\s*(?:\{[^}]*\}\s*)?:(?=\s)", re.M
)
USE = re.compile(r"^(?:pub )?use ([^\s{;]+?)\.\{([^}]*)\}|^(?:pub )?use ([^\s{;]+)$", re.M)
GHOST = re.compile(r"^\s*ghost use ([^\s{;]+?)\.\{([^}]*)\};", re.M)
KEBAB = re.compile(r"^[a-z][^\W_]*'*(?:[-_][^\s-]+)*-[^\s-]+$")
CAMEL = re.compile(r"^[a-z][a-z0-9']*[A-Z]\w*'*[₀₁₂]*$")
# lemmas that port.py spelled in snake case already, each beside a function whose camel case turns into the same name
LEMMAS = set(
    "all_seen has_room is_known key_fits no_room read_out reads_as room_in row_fits rows_fit rows_long still_open too_many turn_on".split()
)
# the snake case of functions that have a lemma of the same words
TAKEN = set()


def snake(name):
    name = name.replace("getD", "get_or")
    low = re.sub(r"(?<=[a-z0-9'])([A-Z])", lambda m: "_" + m.group(1).lower(), name.replace("-", "_"))
    return low + "_lem" if name in LEMMAS or ("-" in name and low in TAKEN) else low


def files(suffix):
    for folder, dirs, names in os.walk(os.path.join(TOP, "crates")):
        dirs[:] = sorted(d for d in dirs if d != "out")
        for name in sorted(names):
            if name.endswith(suffix):
                yield os.path.join(folder, name)


def read(path):
    with open(path, encoding="utf-8") as f:
        return f.read()


def is_kebab(name):
    return bool(re.match(r"^[a-z]", name)) and "-" in name and not name.startswith("-") and not name.endswith("-") and "◌" not in name


def is_ours(module, crates):
    parts = module.split(".")
    return parts[0] == "Rattle" and len(parts) > 1 and parts[1] in crates


def main(argv):
    crates = {d for d in os.listdir(os.path.join(TOP, "crates"))}
    is_proof = lambda p: os.path.basename(p) in ("Proof.antt", "Answers.antt", "Invariants.antt")
    texts = {p: read(p) for p in files(".antt")}
    shared, fields = set(), set()
    for p, t in texts.items():
        if is_proof(p):
            continue
        for m in DECLARED.finditer(t):
            shared.add(m.group(1))
            if re.match(r"\s+(pub )?", m.group(0)) and m.group(0)[:1].isspace():
                fields.add(m.group(1))
    library = collections.defaultdict(set)
    for p, t in texts.items():
        for m in USE.finditer(t):
            if m.group(1) and not is_ours(m.group(1), crates):
                library[p] |= {w.strip() for w in m.group(2).split(",")}
    everything = set().union(*({m.group() for m in TOKEN.finditer(t)} for t in texts.values()))
    TAKEN.update(snake(s) for s in everything if CAMEL.match(s))
    TAKEN.update(s for s in shared if re.match(r"^[a-z]\w*$", s) and s not in LEMMAS)
    renamed = collections.defaultdict(set)
    out = {}

    def turn(text, path, may):
        def one(m):
            s = m.group()
            if s.startswith(("--", "//")):
                return re.sub(r"`([^`\s]+)`", lambda w: "`" + (snake(w.group(1)) if w.group(1) in shared else w.group(1)) + "`", s)
            if s[0] in "\"«'" or s.startswith("b'"):
                return s
            dotted = m.start() > 0 and text[m.start() - 1] == "."
            if may(s, dotted):
                new = snake(s)
                renamed[new].add(s)
                return new
            return s

        return TOKEN.sub(one, text)

    for p, t in texts.items():
        lib = library[p]
        if is_proof(p):
            local = {m.group(1) for m in DECLARED.finditer(t)}
            may = lambda s, dotted: s not in lib and (
                bool(CAMEL.match(s))
                or (s in LEMMAS and not dotted)
                or (is_kebab(s) and ((s in fields and s in shared) if dotted else (s in shared or s in local)))
            )
        else:
            may = lambda s, dotted: s not in lib and (
                bool(CAMEL.match(s)) or (s in LEMMAS and not dotted) or (is_kebab(s) and (not dotted or s in shared))
            )
        # a path of a use line is no field: its last part may be a name of ours
        out[p] = turn(t, p, may)
    for p in files(".rt"):
        t = read(p)
        texts[p] = t
        lib = set()
        for m in GHOST.finditer(t):
            if not is_ours(m.group(1), crates):
                lib |= {w.strip() for w in m.group(2).split(",")}
        out[p] = turn(t, p, lambda s, dotted: s not in lib and (bool(CAMEL.match(s)) or (s in shared and is_kebab(s))))
    bad = False
    for new, old in sorted(renamed.items()):
        if len(old) > 1:
            bad = True
            print("fall together:", new, sorted(old))
    names = set()
    for p, t in texts.items():
        if p.endswith(".antt") and not is_proof(p):
            names |= {m.group(1) for m in DECLARED.finditer(t)}
    for new, old in sorted(renamed.items()):
        if new in names and new not in LEMMAS:
            bad = True
            print("already a name:", new, sorted(old))
        for p, lib in library.items():
            if new in lib and any(re.search(r"(?<![\w'-])" + re.escape(o) + r"(?![\w'-])", texts[p]) for o in old):
                bad = True
                print("a word of the library in", os.path.relpath(p, TOP), new, sorted(old))
    if "--pages" in argv:
        known = {o: n for n, olds in renamed.items() for o in olds}
        pages = [os.path.join(TOP, "README.md")] + [os.path.join(TOP, "docs", d) for d in sorted(os.listdir(os.path.join(TOP, "docs")))]
        for p in pages:
            if p.endswith(".md"):
                t = read(p)
                n = re.sub(r"`([^`\n]+)`", lambda m: "`" + re.sub(r"[A-Za-z][\w'-]*", lambda w: known.get(w.group(), w.group()), m.group(1)) + "`", t)
                if n != t:
                    with open(p, "w", encoding="utf-8") as f:
                        f.write(n)
        return 0
    if bad and "--anyway" not in argv:
        print("nothing was written")
        return 1
    n = 0
    for p, t in out.items():
        t = re.sub(r"(?<=specs\.)Contracts\b|(?<=^pub mod )Contracts$", "Clauses", t, flags=re.M)
        if p.endswith("model_laws/proofs/Recovery.antt"):
            t = re.sub(r"\bnoted\b", "Noted", t)
        if t != texts[p]:
            n += 1
            with open(p, "w", encoding="utf-8") as f:
                f.write(t)
    for p in out:
        if p.endswith("/specs/Contracts.antt"):
            os.rename(p, p.replace("Contracts", "Clauses"))
    print(f"{len(renamed)} names, {n} files")
    return 0


if __name__ == "__main__":
    raise SystemExit(main(sys.argv[1:]))
