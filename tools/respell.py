#!/usr/bin/env python3
"""Brings the names of this repository's own definitions and lemmas to one spelling: tools/respell.py [--dry]

Words (definitions of values, lemmas, fields of records, constructors) are in snake case, types in camel case. The names
are those declared in crates/*/specs and crates/*/proofs, without the answers and invariants that the check asks for by
name; each is replaced wherever it stands as a whole word, in .antt files, .rt files, must-fail edits and pages. It was
run once, after port.py; on a repository in this spelling it changes nothing.
"""
import re
import sys
from pathlib import Path

# Where the plain respelling of a name falls together with another name.
OTHER = {
    "First-row": "FirstRowStands",
    "One-list": "OneFullList",
    "givenBack": "with_places_given_back",
    "heard-as": "heard_alike",
}

root = Path(__file__).resolve().parent.parent
WORD = re.compile(r"[A-Za-z_][A-Za-z0-9_'₀-₉-]*")
DECLARED = re.compile(r"^\s*(?:abbrev )?(?:pub )?(record |data )?([A-Za-z][A-Za-z0-9_'₀-₉-]*)(?: [({].*?)? ?:(?: |$)")
GOALS = re.compile(r"^(returns|invariant|loop|overflow|bounds|measure|choice|law|.*-requires|.*-again|.*-holds)\b")


def respelled(name):
    if name in OTHER:
        return OTHER[name]
    if name[0].isupper():
        return "".join(part[0].upper() + part[1:] for part in re.split("[-_]", name))
    return re.sub(r"(?<=[a-z0-9])([A-Z]+)", lambda m: "_" + m.group(1).lower(), name).replace("-", "_")


def declared():
    names = {}
    for path in sorted(root.glob("crates/*/*/**/*.antt")):
        if "proofs" in path.parts and path.name in ("Answers.antt", "Invariants.antt", "Choices.antt", "Proof.antt", "Lib.antt"):
            continue
        for line in path.read_text().split("\n"):
            if line.lstrip().startswith("--"):
                continue
            match = DECLARED.match(line)
            if match:
                names.setdefault(match.group(2), []).append(str(path.relative_to(root)))
    return names


def main():
    names = declared()
    turned = {name: respelled(name) for name in names if respelled(name) != name}
    files = [path for pattern in ("crates/*/*/**/*.antt", "crates/*/src/**/*.rt", "crates/*/must-fail/*.edit", "docs/*.md")
             for path in sorted(root.glob(pattern))]
    texts = {path: path.read_text() for path in files}
    used = {}
    for path, text in texts.items():
        if path.suffix == ".md":
            continue
        for word in set(WORD.findall(text)):
            used.setdefault(word, set()).add(str(path.relative_to(root)))
    targets = {}
    for name, new in turned.items():
        targets.setdefault(new, []).append(name)
    for new, olds in sorted(targets.items()):
        others = olds + ([new] if new in names else [])
        if len(others) > 1:
            shared = set.intersection(*(used.get(name, set()) for name in others))
            print(f"falls together: {new} from {', '.join(others)}: {[names.get(n, ['?'])[0] for n in others]}; both in {sorted(shared)}")
        elif new in used:
            both = used[new] & used.get(olds[0], set())
            print(f"stands already: {new} (from {olds[0]}, {names[olds[0]][0]}) in {len(used[new])} files; both in {sorted(both)[:6]}")
    if "--dry" in sys.argv:
        return
    for path, text in texts.items():
        new = WORD.sub(lambda m: turned.get(m.group(0), m.group(0)), text)
        if new != text:
            path.write_text(new)
    print(f"{len(turned)} names respelled")


main()
