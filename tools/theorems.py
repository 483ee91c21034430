"""Lists the statements of the lemmas in proofs/*.antt that differ between two trees, old and new.

    python3 tools/theorems.py OLD NEW      OLD and NEW are checkouts
"""
import glob
import os
import re
import sys


def statements(tree):
    found = {}
    for name in sorted(glob.glob(tree + "/crates/*/proofs/*.antt")):
        crate = name.split("/crates/")[1].split("/")[0]
        text = open(name, encoding="utf8").read().split("\n")
        for at, line in enumerate(text):
            head = re.match(r"(\s*)(?:unfoldable |abbrev )?(pub )?([A-Za-z][\w'-]*) : (.*)", line)
            if not head or re.match(r"\s*(use|module|record|data|pub record|pub data)\b", line):
                continue
            indent, rest = len(head.group(1)), [head.group(4)]
            for more in text[at + 1:]:
                if not more.strip() or len(more) - len(more.lstrip()) <= indent:
                    break
                rest.append(more.strip())
            # the equations that prove it follow at the same indent
            if any(later[:indent].strip() == "" and re.match(r"\s{%d}%s( |$)" % (indent, re.escape(head.group(3))), later) for later in text[at + 1:]):
                found[(crate, head.group(3))] = (os.path.basename(name), bool(head.group(2)), " ".join(rest))
    return found


old, new = statements(sys.argv[1]), statements(sys.argv[2])
same = [k for k in old if k in new and old[k][2] == new[k][2]]
print(f"lemmas in proofs/: {len(old)} -> {len(new)}; the same {len(same)}")
for key in sorted(old):
    if key not in new:
        print(f"gone: {key[0]} {old[key][0]} {key[1]}\n    - {old[key][2]}")
    elif old[key][2] != new[key][2]:
        print(f"changed: {key[0]} {key[1]}\n    - {old[key][2]}\n    + {new[key][2]}")
for key in sorted(new):
    if key not in old:
        print(f"new: {key[0]} {new[key][0]} {key[1]}\n    + {new[key][2]}")
