#!/usr/bin/env python3
"""Turns the Proof.antt of a function without loops into Answers.antt: answers under the names of goals, and none that the check finds alone.

usage: tools/answers.py LIST CRATE_FOLDER FUNCTION..

LIST is as in steps.py, which comes first. An answer that has no name and whose place can't be told is printed.
"""

import json
import os
import re
import sys

from steps import arguments

PLAIN = re.compile(r"\(λ c(?: κs)?\.\s*(?:search rules|omega arith|tt|refl)\)")


def turn(crate, function, of):
    folder = os.path.join(crate, "proofs", *function.split("."))
    path = os.path.join(folder, "Proof.antt")
    text = open(path, encoding="utf-8").read()
    needs = [n for _, n in of["needs"]]
    m = re.search(r"^pub \S+_spec : .*\n\S+_spec =\s*tie\.close\s*\(tie\.spec\b", text, re.M)
    args = [text[m.end() + a : m.end() + b] for a, b in arguments(text[m.end() :])]
    head = text[: m.start()]
    by_place = dict(zip(args, needs)) if len(args) == len(needs) else {}
    used, extra = set(), []
    for a in args:
        if re.fullmatch(r"[^\s()]+", a):
            t = re.search(rf"^(?:abbrev )?{re.escape(a)} : tie\.Need-(\S+)", head, re.M)
            goal = t.group(1) if t else by_place.get(a)
            if goal is None:
                print(function, "no goal for", a)
                continue
            used.add(goal)
            head = re.sub(rf"^(?:abbrev )?{re.escape(a)} : .*$", f"pub {goal} : goal.{goal}", head, flags=re.M)
            head = re.sub(rf"^{re.escape(a)} c(?: κs)? =", f"{goal} c =", head, flags=re.M)
            head = re.sub(rf"(?<![\w'.-]){re.escape(a)}(?= c\b)", goal, head)
        elif not PLAIN.fullmatch(a):
            goal = by_place.get(a)
            b = re.fullmatch(r"\(λ (\S+?)(?: κs)?\.\s*(.*)\)", a, re.S)
            if goal is None or not b or args.count(a) > 1:
                print(function, "by hand:", " ".join(a.split()))
                continue
            extra.append(f"pub {goal} : goal.{goal}\n{goal} {b.group(1)} = {b.group(2)}\n")
    head = re.sub(r"^use Rattle\.(\S+)\.Statement\.\{statement\}\n", "", head, flags=re.M)
    head = re.sub(r"\.Tie as tie$", ".Goals as goal", head, flags=re.M)
    places = sorted(set(re.findall(r"\btie\.([^\s)]+)", head)))
    head = re.sub(r"\btie\.", "", head)
    if places:
        head = re.sub(r"^(use (\S+)\.Goals as goal)$", lambda k: f"{k.group(1)}\nuse {k.group(2)}.Goals.{{{', '.join(places)}}}", head, flags=re.M)
    with open(os.path.join(folder, "Answers.antt"), "w", encoding="utf-8") as f:
        f.write(head.rstrip() + "\n" + "".join("\n" + e for e in extra))
    os.remove(path)


def main(argv):
    names, crate = json.load(open(argv[0])), argv[1]
    name = os.path.basename(os.path.abspath(crate))
    for function in argv[2:]:
        turn(crate, function.replace("::", "."), names[f"Rattle-{name}-proofs.{function.replace('::', '.')}.Lts"])
    return 0


if __name__ == "__main__":
    raise SystemExit(main(sys.argv[1:]))
