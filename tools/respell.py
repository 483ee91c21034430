#!/usr/bin/env python3
"""Respells the repository's own words: words in snake case, facts and types in camel case.

usage: python3 tools/respell.py     once, at the top, right after port.py

It renames what the files of specs/ and proofs/ declare, everywhere where it is named: in specs, proofs, clauses, must-fail
edits and between backticks in docs/. It leaves what Rattle itself names (goals, steps, the library) and all of src/ but
its clauses. It stops, changing nothing, where two names would fall together.
"""
import collections
import glob
import re
import sys

# Lemmas named by their left side, the outer call first, where a dash joins two names.
KEEP = {"total-append", "total-set", "part-set", "take-set-any"}
WORD = r"[^\s(){}\[\].,;:`\"λ→⌜⌝]+"
TOKEN = re.compile(WORD)
DECLARED = re.compile(r"\s*(?:(?:abbrev|unfoldable|pub|data|record)\s+)*(" + WORD + r")\s*(?:[({].*)?:(?!=)\s*(.*)")
LET = re.compile(r"\blet\s+(" + WORD + r")\s*(?::|=)")
PROSE = re.compile(r"^\s*(--|//)")
# Names that would fall together with one of the library's.
OTHERWISE = {"put-mid": "put_mid_pastes"}
# Words that have the name of the function or the proof that they speak of: a clause sees the word, code the function.
MIRRORS = {"file-size", "list-sum", "or-blank", "searches-are-right", "stated-lines"}


def respelt(name):
    if name in OTHERWISE:
        return OTHERWISE[name]
    parts = name.split("-")
    if name[0].isupper():
        return "".join(p[:1].upper() + p[1:] for p in parts)
    return "_".join(parts)


def read(path):
    with open(path, encoding="utf-8") as f:
        return f.read()


def declared(files):
    """Each name with a dash that a file declares, and where; goals and choices, which Rattle names, are left out."""
    found, goals = collections.defaultdict(set), set()
    for path in files:
        for line in read(path).split("\n"):
            if PROSE.match(line):
                continue
            m = DECLARED.match(line)
            if m and m.group(2).startswith("goal."):
                goals.add(m.group(1))
            elif m:
                found[m.group(1)].add(path)
            for m in LET.finditer(line):
                found[m.group(1)].add(path)
    names = {n for n in found if "-" in n.strip("-") and re.match(r"^[A-Za-z][A-Za-z0-9'_-]*$", n)}
    return {n: found[n] for n in names - goals - KEEP}


def main():
    antt = sorted(glob.glob("crates/*/specs/**/*.antt", recursive=True) + glob.glob("crates/*/proofs/**/*.antt", recursive=True))
    src = sorted(glob.glob("crates/*/src/**/*.rt", recursive=True))
    edits = sorted(glob.glob("crates/*/must-fail/*.edit"))
    docs = sorted(glob.glob("docs/*.md")) + ["README.md"]
    names = declared(antt)
    to = {n: respelt(n) for n in names}
    backwards = collections.defaultdict(set)
    for old, new in to.items():
        backwards[new].add(old)
    clashes = [f"{sorted(o)} -> {n}" for n, o in backwards.items() if len(o) > 1]
    texts = {p: read(p) for p in antt + src + edits + docs}
    for p in antt + src + edits:
        here = set(TOKEN.findall(texts[p]))
        clashes += [f"{p}: {o} -> {to[o]} stands there already" for o in sorted(here & set(to) - MIRRORS) if to[o] in here]
    if clashes:
        print("\n".join(clashes))
        return 1
    changed = 0
    for p, text in texts.items():
        if p in docs:
            new = re.sub(r"`[^`\n]*`", lambda m: TOKEN.sub(lambda t: to.get(t.group(0), t.group(0)), m.group(0)), text)
        else:
            new = TOKEN.sub(lambda t: to.get(t.group(0), t.group(0)), text)
        if new != text:
            changed += 1
            with open(p, "w", encoding="utf-8") as f:
                f.write(new)
    print(f"{len(to)} names respelt in {changed} files")
    return 0


if __name__ == "__main__":
    sys.exit(main())
