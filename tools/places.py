#!/usr/bin/env python3
"""Lists the places in the code that an older form could stand in, point by point, at a commit.

usage: python3 tools/places.py [COMMIT]        COMMIT: HEAD if left out

It finds candidates by their text; docs/DESIGN-PASS.md says which of them are places of a point. The points:
  1 enums, flags in structs, and results or options that are passed on by hand
  2 functions that differ only in names and numbers, and names of functions that stand more than once
  3 loops
  4 trait impls by hand, casts, and functions named as conversions
  5 clauses of 'requires' that stand three times or more, and pairs of parameters that stand together three times or more, one of them
    in at most a quarter of its functions without the other
  6 arrays, lent slices and vectors in structs and parameters
  7 matches that pick what to run, and dynamic calls
  8 files of proofs, and their lines
"""

import collections
import re
import subprocess
import sys

TESTS = ("tests.rt", "plan_tests.rt", "queue_tests.rt")


def git(*words):
    return subprocess.run(["git", *words], check=True, capture_output=True, text=True).stdout


def files(commit, part, suffix):
    names = git("ls-tree", "-r", "--name-only", commit, "crates").split("\n")
    return [n for n in names if f"/{part}/" in n and n.endswith(suffix)]


def functions(text):
    """Each function: line, name, parameters, clauses, body."""
    for found in re.finditer(r"^( *)(?:pub(?:\(crate\))? )?fn (\w+)", text, re.M):
        end = text.find(f"\n{found[1]}}}", found.start())
        whole = text[found.start() : end if end > 0 else len(text)]
        if "{" not in whole:
            continue
        opening = whole.find("(")
        depth, at = 0, opening
        for at in range(opening, len(whole)):
            depth += {"(": 1, ")": -1}.get(whole[at], 0)
            if depth == 0:
                break
        body = re.split(r"\n *\{\n| \{\n", whole, maxsplit=1)[-1]
        line = text.count("\n", 0, found.start()) + 1
        yield line, found[2], whole[opening + 1 : at], whole[at + 1 :], body


def shape(body):
    """A body with its names, numbers and spaces blanked."""
    body = re.sub(r"//.*", "", body)
    body = re.sub(r"\b(?!if|else|match|for|in|while|loop|return|let|mut|as)[A-Za-z_]\w*", "N", body)
    return re.sub(r"\s+", "", re.sub(r"\b\d[\d_]*(?:u\d+)?\b", "0", body))


def show(title, places):
    print(f"   {title}: {len(places)}")
    for place in places:
        print(f"      {place}")


def grep(sources, pattern):
    return [
        f"{name}:{number}: {line.strip()}"
        for name, text in sources.items()
        for number, line in enumerate(text.split("\n"), 1)
        if re.search(pattern, line)
    ]


def main():
    commit = sys.argv[1] if len(sys.argv) > 1 else "HEAD"
    sources = {n: git("show", f"{commit}:{n}") for n in files(commit, "src", ".rt")}
    code = {n: t for n, t in sources.items() if not n.endswith(TESTS)}
    known = [(n, *f) for n, t in code.items() for f in functions(t)]

    print("1 options, results, flags, codes")
    show("enums", grep(sources, r"^\s*(pub(\(crate\))? )?enum "))
    show("flags in structs", grep(sources, r"^\s+(pub(\(crate\))? )?\w+: bool,"))
    show("a refusal as an option", grep(sources, r"Option<Refusal>"))
    show("passed on by an arm", grep(sources, r"^\s*(None|Err\(\w+\)|Ok\(\(\)\)|Ok\(None\)|Ok\(\w+\)|Some\(\w+\)) => (return )?(None|Err\(|Ok\(|Some\()"))
    show("passed on by else", grep(sources, r"let (Some|Ok|\w+::\w+)\(.*else \{$"))

    print("2 twins")
    by_shape = collections.defaultdict(list)
    by_name = collections.defaultdict(list)
    for name, line, function, _, _, body in known:
        by_name[function].append(f"{name}:{line}")
        by_shape[shape(body)].append(f"{function} ({name}:{line})")
    show("bodies of one shape", [", ".join(v) for k, v in by_shape.items() if len(v) > 1 and len(k) > 12])
    show("names that stand again", [f"{k}: {', '.join(v)}" for k, v in sorted(by_name.items()) if len(v) > 1])

    print("3 loops")
    show("loops", grep(sources, r"^\s*(for|while|loop)\b"))

    print("4 by hand")
    show("impls of traits", grep(sources, r"^\s*impl.* for "))
    show("casts", grep(sources, r" as (usize|u8|u16|u32|u64)\b"))
    show("conversions by name", grep(sources, r"fn (from_\w+|to_\w+|of|\w+_of|as_\w+|symbol|crossing|number|refusal)\("))

    print("5 facts and parameters that stand together")
    facts, pairs, alone = collections.Counter(), collections.Counter(), collections.Counter()
    for _, _, _, parameters, clauses, _ in known:
        for fact in re.findall(r"requires(?: \w+)? \{ (.*) \}$", clauses, re.M):
            for part in fact.split(" × "):
                facts[part.replace("(", "").replace(")", "").replace(".old", "").replace(".now", "").strip()] += 1
        names = sorted(set(re.findall(r"(?:^|, |\n\s*)(?:mut )?(\w+): ", parameters)))
        alone.update(names)
        for i, one in enumerate(names):
            pairs.update((one, other) for other in names[i + 1 :])
    always = [(p, n) for p, n in pairs.most_common() if n > 2 and 4 * n >= 3 * min(alone[p[0]], alone[p[1]])]
    show("facts", [f"{n} x {f}" for f, n in facts.most_common() if n > 2])
    show("parameters", [f"{n} x {', '.join(p)}" for p, n in always])

    print("6 buffers")
    show("arrays and slices in structs", grep(code, r"^\s+(pub(\(crate\))? )?\w+: (\[\w+; |&'a (mut )?\[|Vec<)"))
    show("vectors lent to be filled", grep(code, r": &mut Vec<"))

    print("7 what to run")
    show("dynamic calls", grep(sources, r"\bdyn\b|: fn\(|Box<"))
    show("matches whose arms run something", grep(code, r"^\s*('\w'|\"[\w-]+\"|\(?\w+::\w+(\(\w+\))?(, \w+::\w+\))?) => ([a-z]\w*(::|\.))*[a-z]\w*(::<.*>)?\("))

    print("8 proofs")
    proofs = files(commit, "proofs", ".antt")
    lines = sum(git("show", f"{commit}:{n}").count("\n") for n in proofs)
    per = collections.Counter(n.split("/")[1] for n in proofs)
    print(f"   {len(proofs)} files, {lines} lines: " + ", ".join(f"{k} {v}" for k, v in sorted(per.items())))


main()
