"""Lists the candidates for each kind of place that the design pass looks at, in the src/ of a tree.

    python3 tools/places.py [TREE]      TREE is a checkout, this one where none is named; tests are left out

A candidate is a line of text that may be such a place; which of them are, docs/DESIGN-PASS.md says.
"""
import collections
import glob
import re
import sys

tree = sys.argv[1] if len(sys.argv) > 1 else "."
files = sorted(f for f in glob.glob(tree + "/crates/*/src/**/*.rt", recursive=True) if "_edges/" not in f and "/edges/" not in f)

LINES = {
    "1 enums": r"^(pub(\(crate\))? )?enum ",
    "1 numbers that may stand for kinds": r"^\s*(pub )?(kind|code|cause|number|passage): (u8|u32|u64)\b|[{(] ?(kind|code|cause|number|passage): (u8|u32|u64)\b",
    "1 constants": r"^\s*(pub(\(crate\))? )?const \w+: u(8|32|64)\b",
    "1 flags": r"\b\w+: (&?bool|&?\[bool)",
    "1 literal codes": r"(code|number): \d",
    "3 loops": r"^\s*(for|while|loop)\b",
    "3 indices": r"\w\[\w+( as usize)?\]",
    "4 carried over": r"^\s*(Ok|Err|Some|None)\b.*=> .*\b(Ok|Err|Some|None)\b|^\s*Err\(_\) =>|^\s*None =>",
    "4 impls of printing and converting": r"^impl.*\b(PartialEq|Ord|Clone|Copy|From|TryFrom|Display|Error)\b.* for ",
    "4 conversions by a method": r"fn (of|check|named|of_word|number|inner|located|item|number_of|on_line|blank)\b",
    "4 results that are let go": r"let _ = |unreachable",
    "6 arrays and places": r"\[[\w ]+; \w+\]|\bplace: usize",
    "7 closures, dyn, function pointers": r"\bdyn |\bfn\(|impl Fn|: Fn",
}


def lines():
    for name in files:
        for number, line in enumerate(open(name, encoding="utf8"), 1):
            if not line.lstrip().startswith("//"):
                yield name[len(tree) + 1:], number, line.rstrip("\n")


def show(title, found):
    print(f"== {title}: {len(found)}")
    for row in found:
        print("   " + row)


everything = list(lines())
for title, pattern in LINES.items():
    show(title, [f"{name}:{number}: {line.strip()}" for name, number, line in everything if re.search(pattern, line)])

clauses, parameters, fields = (collections.defaultdict(list) for _ in range(3))
owner = None
for name, number, line in everything:
    head = re.search(r"\bfn (\w+)", line)
    if head:
        owner = head.group(1)
        takes = tuple(p for p in re.findall(r"(\w+): [^,()]+", line[line.find("(") :]) if p != "self")
        if len(takes) > 1:
            parameters[takes].append(f"{name}:{owner}")
    clause = re.match(r"\s*(?:requires|ensures)\s*\w*\s*\{ (.*) \}$", line)
    if clause:
        clauses[clause.group(1)].append(f"{name}:{owner}")
        for part in set(re.findall(r"part self[\w.]* self[\w.]* \(B[\w.]* self[\w.]*\)", clause.group(1))):
            clauses[part.replace(".now", "").replace(".old", "").replace(".new", "").replace(".Book", "")].append(f"{name}:{owner}")

for name in files:
    for struct, body in re.findall(r"struct (\w+)[^{;]*\{([^}]*)\}", open(name, encoding="utf8").read()):
        fields[tuple(re.findall(r"^\s*(?:pub )?(\w+):", body, re.M))].append(f"{name[len(tree) + 1:]}:{struct}")

show("2 and 5 clauses of two functions and more", [f"{len(set(at))} {text}: {', '.join(sorted(set(at)))}" for text, at in clauses.items() if len(set(at)) > 1])
show("2 structs with the same fields", [f"{' '.join(names)}: {', '.join(at)}" for names, at in fields.items() if len(at) > 1])
show("5 parameters that travel together", [f"{' '.join(names)}: {', '.join(at)}" for names, at in parameters.items() if len(at) > 1])
