#!/usr/bin/env python3
"""Gives the steps, places and goals that a Proof.antt names the names that today's Rattle makes for them.

usage: tools/steps.py LIST CRATE_FOLDER [FUNCTION..]

LIST is the names.json that `rt check --generated DIR --old-names` writes in the crate's folder. Run it once for a crate.
"""

import json
import os
import re
import sys

WORD = r"[^\s(){}.;,@\"«»\[\]\\]+"
TOKEN = re.compile(r"--[^\n]*|\"(?:[^\"\\]|\\.)*\"|«[^»]*»|" + WORD)
plain = lambda s: s.replace("_", "-")


def arguments(text):
    """The places of the arguments of a call, which are words and groups in brackets, each a (from, to)."""
    out, i, n = [], 0, len(text)
    while i < n:
        if text[i].isspace():
            i += 1
            continue
        start = i
        if text[i] == ")":
            break
        depth = 0
        while i < n:
            ch = text[i]
            if ch in "([{":
                depth += 1
            elif ch in ")]}":
                if depth == 0:
                    break
                depth -= 1
                if depth == 0 and not (i + 1 < n and text[i + 1] == "."):
                    i += 1
                    break
            elif ch.isspace() and depth == 0:
                break
            i += 1
        out.append((start, i))
    return out


def aliases(text):
    """A name for the place that an answer is about is that place, as far as the name reaches."""
    blocks = re.split(r"(\n\n)", text)
    for k, block in enumerate(blocks):
        while True:
            m = re.search(r"let ([^\s:]+) = ([^\s.()]+) in\b\s*", block)
            if not m:
                break
            depth, end = 0, m.end()
            while end < len(block):
                if block[end] in "([{":
                    depth += 1
                elif block[end] in ")]}":
                    if depth == 0:
                        break
                    depth -= 1
                end += 1
            rest = re.sub(r"(?<![^\s(\[{,←])" + re.escape(m.group(1)) + r"(?=[\s.)\]},;]|$)", m.group(2), block[m.end() : end])
            block = block[: m.start()] + rest + block[end:]
        blocks[k] = block
    return "".join(blocks)


def negations(text):
    """The test of `!f(x)` was that `not r` is true, and is now that r is false."""
    def one(m):
        depth, i = 0, m.start() - 1
        while i >= 0:
            if text[i] in ")]}":
                depth += 1
            elif text[i] in "([{":
                if depth == 0:
                    break
                depth -= 1
            i -= 1
        alone = re.search(r"[(,\[←]\s*$", text[: m.start()])
        if (alone and re.search(r"\b(rw|simp|omega|cc)\s*$", text[: max(i, 0)])) or re.search(r"\b(rw|simp|cc|absurd) $", text[: m.start()]):
            return m.group()
        return "(rw " + m.group() + ")"

    return re.sub(r"(?<![\w.-])[^\s.()\[\]{},]+\.if-not-[\w-]+\.(?:true|false)(?![\w.])", one, text)


def chains(text, of):
    """A helper that takes a place is given that place: as many steps back from where it is called as there are now."""
    news, arms = of["places_by_name"], of["arms"]
    index = {n: k for k, n in enumerate(news)}
    old = {p[0]: k for k, p in enumerate(of["places"])}
    # the last of an arm's places is all that can be named
    last = {a[0]: n for n, a in zip(news, arms) if a}

    def up(k):
        for _ in range(arms[k][1] if arms[k] else 1):
            if k is not None:
                k = old.get(of["places"][k][1])
        return k

    def back(a, b):
        k, n = index.get(a), 0
        while k is not None and news[k] != b:
            k, n = up(k), n + 1
        return None if k is None else ".before" * n

    def settled(place):
        k = index.get(place)
        return last[arms[k][0]] if k is not None and arms[k] and last[arms[k][0]] in index else place

    text = re.sub(r"\btie\.(In[_-][^\s)]+)", lambda m: "tie." + settled(m.group(1)), text)
    asked = {n: a[1] for (_, n), a in zip(of["needs"], of["asked_at"])}
    helpers = {}
    for m in re.finditer(r"^(?:abbrev )?(\S+) :\s*\(?(?:c : )?tie\.([^\s)]+)(?:[^→\n]|\n +)*→(?:\s*tie\.([^\s)]+))?", text, re.M):
        if not m.group(2).startswith(("Need-", "invariant-", "decreases-")):
            helpers[m.group(1)] = (m.group(2), m.group(3))
    for m in re.finditer(r"^(\S+) : tie\.Need-([^\s)]+)", text, re.M):
        if m.group(2) in asked:
            helpers[m.group(1)] = (asked[m.group(2)], None)

    def called(block, place):
        def one(m):
            way = back(place, helpers[m.group(1)][0])
            return m.group() if way is None else m.group(1) + " c" + way
        names = "|".join(sorted(map(re.escape, helpers), key=len, reverse=True))
        if not helpers:
            return block
        block = re.sub(rf"(?<![\w'.-])({names}) c(?:\.before)*(?![\w'.-])", one, block)

        def two(m):
            way = back(helpers[m.group(2)][1], helpers[m.group(1)][0])
            return m.group() if way is None else f"{m.group(1)} ({m.group(2)} c{m.group(3)}){way}"
        return re.sub(rf"(?<![\w'.-])({names}) \(({names}) c((?:\.before)*)\)(?:\.before)*(?![\w'.-])", two, block)

    out = []
    for block in re.split(r"(\n\n)", text):
        m = re.match(r"(?:--[^\n]*\n)*(?:abbrev )?(\S+) :\s*\(?(?:c : )?tie\.([^\s)]+)", block)
        if m:
            name, what = m.group(1), m.group(2)
            place = asked.get(what[5:]) if what.startswith("Need-") else what
            if name in helpers and helpers[name][1] in index:
                way = back(place, helpers[name][1])
                if way is not None:
                    block = re.sub(rf"(^{re.escape(name)} c = c)(?:\.before)*$", lambda k: k.group(1) + way, block, flags=re.M)
                def from_other(k):
                    if k.group(2) not in helpers:
                        return k.group()
                    way = back(helpers[k.group(2)][1], helpers[name][1])
                    return k.group() if way is None else k.group(1) + way
                block = re.sub(rf"(^{re.escape(name)} c = \((\S+) c\))(?:\.before)*$", from_other, block, flags=re.M)
            block = called(block, place)
        s = re.search(r"\(tie\.spec\b", block)
        if s:
            args = arguments(block[s.end() :])
            needs = of["needs"]
            if len(args) >= len(needs):
                for (a, b), (_, n) in reversed(list(zip(args[len(args) - len(needs) :], needs))):
                    a, b = a + s.end(), b + s.end()
                    block = block[:a] + called(block[a:b], asked.get(n)) + block[b:]
        out.append(block)
    return "".join(out)


def turn(path, of):
    original = text = open(path, encoding="utf-8").read()
    said = []
    needs = of["needs"]
    news = of["places_by_name"]
    place = {}
    step = {}
    for (old, _parent, (o, s), *_), new in zip(of["places"], news):
        place.setdefault(plain(old), new)
        if o:
            step.setdefault(plain(o), s)
    variables = set()
    loops = {}
    for (o, s), names in of["loops"]:
        loops[plain(o)] = s
        variables |= set(names)
    for names in of["params"].values():
        variables |= set(names)
    known = {plain(v): v for v in variables}
    by_letters = {o.lower(): s for o, s in step.items()}
    # a step is a field of each later place, so no chain of places leads to it
    text = re.sub(r"(?:\.before)+(?=\.(?!before\b|\d))", "", text)
    text = re.sub(r"(let [^\s:]+ = [^\s.]+)(?:\.before)+ in\b", r"\1 in", text)
    text = re.sub(r"(?<=[\w)])\.inv(?=[\s.)},;])", ".invariant", text)
    text = re.sub(r"(?<=[\w)])\.pre(?=[\s.)},;])", ".requires", text)
    # what an arm of a match has known
    for arm in of["arms"]:
        for new, old, way in arm[2] if arm else []:
            if way:
                dashed = re.escape(plain(old)).replace(r"\-", "[-_]")
                text = re.sub(r"(?<=[^\s.(])\." + dashed + "".join(r"\." + w for w in way) + r"(?![\w.'-]*(?<=\d)[\w'-])",
                              "." + arm[0] + "." + new, text)
    # which definition stands where in the list of answers
    at = {}
    m = re.search(r"\(tie\.spec\b", text)
    if m:
        args = [text[m.end() + a : m.end() + b] for a, b in arguments(text[m.end() :])]
        rest = args[2 * len(loops) :] if loops else args
        if len(rest) == len(needs) + 1:
            # a goal that is gone: the first plain answer without which calls and what they require stand side by side
            def fits(k):
                left = rest[:k] + rest[k + 1 :]
                return rest[k].startswith("(λ c. search rules") and all(
                    not a.startswith("(λ c") or a.startswith("(λ c κs") == n.endswith("-requires") or re.search(r"-requires-", n)
                    for a, (_, n) in zip(left, needs))
            k = next((k for k in range(len(rest)) if fits(k)), None)
            if k is not None:
                start = [m.end() + a for a, b in arguments(text[m.end() :])][len(args) - len(rest) + k]
                text = text[:start].rstrip() + text[start + len(rest[k]) :]
                said.append(f"answer {k} of {len(rest)} is gone")
                rest = rest[:k] + rest[k + 1 :]
        # a recursion's measure or a loop without one shifts the list
        if len(rest) != len(needs):
            rest = args[len(args) - len(needs) :] if len(args) >= len(needs) else []
            said.append(f"answers {len(args)}, loops {len(loops)}, goals {len(needs)}: {[n[1] for n in needs]}")
        for a, n in zip(rest, needs):
            at[a] = n[1]
    old_need = {}
    for o, n in needs:
        old_need.setdefault(plain(o), n)
    new_need = {plain(n): n for _, n in needs}
    # the name of each definition, by its place in the text
    heads = [(m.start(), m.group(1)) for m in re.finditer(r"^(?:abbrev |pub )*([^\s:]+)\s*(?=:|\{)", text, re.M)]

    def one(m):
        s = m.group()
        if s.startswith("--") or s[0] in "\"«":
            return s
        before = text[: m.start()]
        if not before.endswith(".") or text[before.rfind("\n") + 1 :].startswith("use "):
            return s
        if before.endswith("tie."):
            if s in ("spec", "close"):
                return s
            if s.startswith("Need-"):
                head = [h for p, h in heads if p < m.start()]
                if head and head[-1] in at:
                    return "Need-" + at[head[-1]]
                want = plain(s[5:])
                new = old_need.get(want) or new_need.get(want)
                if new is None:
                    said.append("no goal " + s)
                    return s
                return "Need-" + new
            for word in ("invariant-", "decreases-"):
                if s.startswith(word):
                    new = loops.get(plain(s[len(word) :]))
                    if new is None:
                        said.append("no loop " + s)
                        return s
                    return word + new
            new = place.get(plain(s))
            if new is None:
                said.append("no place " + s)
                return s
            return new
        if s.isdigit():
            return s
        if s.endswith("_lem") and plain(s[:-4]) in step:
            s = s[:-4]
        s = s.replace("is_Is_", "is_")
        prior = re.search(r"([^\s.(]+)\.$", before)
        if prior and (prior.group(1) in ("args", "new", "ranges", "initial", "fn", "requires", "ensures") + tuple(loops.values()) or prior.group(1) in {a[0] for a in of["arms"] if a}):
            return known.get(plain(s), s)
        # a step that a variable comes back in has its name with a number: what is meant here is mostly a field of that name
        if re.fullmatch(re.escape(s) + r"(?:-\d+)*-1", step.get(plain(s), "")) and not text[m.end() :].startswith(".given"):
            return s
        new = step.get(plain(s)) or by_letters.get(plain(s).lower())
        if new is not None:
            return new
        if "-" in s and plain(s) in known:
            return known[plain(s)]
        return s

    out = TOKEN.sub(one, text)
    out = chains(negations(aliases(out)), of)
    if out != original:
        with open(path, "w", encoding="utf-8") as f:
            f.write(out)
    return said


def main(argv):
    names, crate, only = json.load(open(argv[0])), argv[1], argv[2:]
    name = os.path.basename(os.path.abspath(crate))
    for module, of in names.items():
        m = re.fullmatch(rf"Rattle-{name}-proofs\.(.*)\.Lts", module)
        if not m or "places" not in of or (only and m.group(1) not in only):
            continue
        path = os.path.join(crate, "proofs", *m.group(1).split("."), "Proof.antt")
        if os.path.exists(path):
            for it in turn(path, of):
                print(m.group(1), it)
    return 0


if __name__ == "__main__":
    raise SystemExit(main(sys.argv[1:]))
