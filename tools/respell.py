#!/usr/bin/env python3
"""Brings the definitions and lemmas of this repository to the spelling of today's Rattle, once, after the kit's port.py.

usage: python3 tools/respell.py [--list] [TOP]        TOP: the top of the repository (this one)

A name that a file of specs/ or proofs/ defines, or that a 'let' there binds, is written in snake case: 'costOf' becomes 'cost_of', 'run-push' becomes 'run_push'.
A dash stays where it joins the names of two functions, as in 'length-posts_of'. Types, facts and modules keep their capitals. Names that Rattle makes
(goals, steps, branches) are left as they are, and so are Rust code, strings, comments in Rust and edits that must be refused.
It stops where two names would fall together. With --list it only prints the names.
"""

import os
import re
import sys

NAME = r"[^\W\d][\w'-]*"
TOKEN = re.compile(r"(?<![\w'◌-])" + NAME + r"(?![\w'-])")
DEFINES = re.compile(r"^(\s*)(?:abbrev |unfoldable )?(?:pub )?(?:record |data )?(?:pub )?(" + NAME + r") +(?:\(|\{|:)(.*)$")
LET = re.compile(r"\blet (" + NAME + r")(?= *[:=])")
IMPORT = re.compile(r"\buse Rattle\.(\w+)\.[^{;\n]*\{([^}]*)\}")
MADE = re.compile(r"^(returns|loop|decreases|invariant|overflow|bounds|offset-bounds|in|then|else|if|ghost)-|-requires\b")
# names in which a dash stays: it joins the names of two functions
JOINED = set(
    "act-act-turned act-turned-act acts-acts acts-empty acts-push push-push turned-turned times-empty written-push product-push crossed-single map-stored"
    " length-fours length-lanes_in length-mirror length-padded length-posts_of length-write length-written drop-padded put-padded"
    " get_or-blank get_or-fours get_or-image get_or-lanes_in get_or-padded get_or-set_risk get_or-vacant get_or-written_other"
    " number_at-image other_way-other_way survey_at-listed spell_all-push".split()
)
# names that would fall together with others, and some that the rules below do not reach
APART = {"in-column": "in_column", "lane-at": "grid_site-lane_at", "pair-at": "pair_at-stands", "two_at": "two_at-bytes", "Ends-known": "EndsKnown"}
WORDS = {"getD": "get_or", "isEq": "is_eq"}


def files(top):
    for folder, dirs, names in os.walk(os.path.join(top, "crates")):
        dirs[:] = sorted(d for d in dirs if d not in ("out", "must-fail"))
        for name in sorted(names):
            if name.endswith((".rt", ".antt")):
                yield os.path.join(folder, name)


def snake(word):
    return WORDS.get(word) or (re.sub(r"(?<=[a-z0-9])([A-Z])", lambda m: "_" + m[1].lower(), word) if word[:1].islower() else word)


def imported(top):
    """The names that files import from libraries."""
    own = set(os.listdir(os.path.join(top, "crates")))
    names = set()
    for path in files(top):
        with open(path, encoding="utf-8") as f:
            for crate, line in IMPORT.findall(f.read()):
                if crate not in own:
                    names.update(w.split()[0] for w in line.split(",") if w.strip())
    return names


def defined(top):
    """The names that the repository defines."""
    names, foreign = set(), imported(top)
    for path in files(top):
        if not path.endswith(".antt"):
            continue
        goals = os.path.basename(path) in ("Answers.antt", "Invariants.antt", "Choices.antt", "Proof.antt")
        with open(path, encoding="utf-8") as f:
            for line in f:
                if line.lstrip().startswith("--"):
                    continue
                m = DEFINES.match(line)
                if m and not m[3].strip().startswith("goal.") and not (goals and MADE.search(m[2])):
                    names.add(m[2])
                names.update(n for n in LET.findall(line) if not MADE.search(n))
    return names - foreign


def respelled(name):
    """The new name: its dash-joined parts in snake case, joined by dashes where JOINED has it so, and else by underscores."""
    if name in APART:
        return APART[name]
    flat = "_".join(snake(p) for p in name.split("-"))
    return next((j for j in JOINED if j.replace("-", "_") == flat), flat)


def table(top):
    names = defined(top) | set(APART)
    turned = {n: respelled(n) for n in names}
    turned = {n: new for n, new in turned.items() if new != n}
    taken = {}
    for n in sorted(names):
        new = turned.get(n, n)
        if new in taken and taken[new] != n:
            print(f"two names fall together: {taken[new]} and {n} as {new}")
            turned = None
        taken[new] = n
        if turned is None:
            raise SystemExit(2)
    return turned


def turn_antt(text, turned):
    kept = set()
    for m in re.finditer(r"\.Goals\.\{([^}]*)\}", text):
        kept.update(w.strip() for w in m[1].split(","))
    return TOKEN.sub(lambda m: m[0] if m[0] in kept else turned.get(m[0], m[0]), text)


def turn_rt(text, turned):
    """The clauses, ghost items and ghost imports of a file of Rattle."""
    out, i = [], 0
    head = re.compile(r"\bghost use [^;]*;|\b(?:requires|ensures|ghost)\b[^\n{;=]*[=]?[^\n{;=]*\{|^//.*$|//[^\n]*|\"(?:\\.|[^\"\\])*\"", re.M)
    while True:
        m = head.search(text, i)
        if not m:
            break
        out.append(text[i : m.start()])
        if m[0].startswith(("//", '"')):
            out.append(m[0])
            i = m.end()
        elif m[0].startswith("ghost use"):
            out.append(turn_antt(m[0], turned))
            i = m.end()
        else:
            deep, j = 1, m.end()
            while j < len(text) and deep:
                deep += (text[j] == "{") - (text[j] == "}")
                j += 1
            out.append(turn_antt(text[m.start() : j], turned))
            i = j
    out.append(text[i:])
    return "".join(out)


def main(argv):
    words = [a for a in argv if not a.startswith("--")]
    top = words[0] if words else os.path.join(os.path.dirname(os.path.abspath(__file__)), "..")
    turned = table(top)
    if "--list" in argv:
        for n in sorted(turned):
            print(n, turned[n])
        return 0
    count = 0
    for path in files(top):
        with open(path, encoding="utf-8") as f:
            text = f.read()
        new = (turn_antt if path.endswith(".antt") else turn_rt)(text, turned)
        if new != text:
            count += 1
            with open(path, "w", encoding="utf-8") as f:
                f.write(new)
    print(f"{len(turned)} names, {count} files")
    return 0


if __name__ == "__main__":
    raise SystemExit(main(sys.argv[1:]))
