#!/usr/bin/env python3
"""Brings this repository's own definitions and lemmas to the spelling of today's Rattle.

usage: tools/respell.py            at the top of the checkout, once, behind Rattle's own port script

A word is in snake case, types and modules are in camel case. A dash joins two names, as in length-drop; a plain word is added with '_'.
Where a lemma would have the name of a definition or of a function, it gets '_lem'. Names from src/ and from Rattle's library keep theirs.
It rewrites specs/, proofs/, the clauses in src/, the must-fail edits, and what stands in backquotes in docs/ and README.md.
"""

import glob
import re
import sys

NAME = r"[A-Za-z_][\w']*(?:-[\w'◌*+≤<≡∙]+)*"
WORD = re.compile(NAME)
DECLARED = re.compile(r"^\s*(?:(?:abbrev|unfoldable|pub|private)\s+)*(?:(?:record|data)\s+)?(" + NAME + r")\s*[:({]")
LET = re.compile(r"\blet\s+(" + NAME + r")\s*[:=]")
BOUND = re.compile(r"[({]\s*((?:" + NAME + r"\s+)*" + NAME + r")\s*:")
USE = re.compile(r"^\s*(?:ghost\s+)?(?:pub\s+)?use\s+([\w.'·-]+?)(?:\.\{([^}]*)\}|(?:\s+as\s+(" + NAME + r"))?)\s*;?\s*$")
STRING = re.compile(r'b?"(?:[^"\\]|\\.)*"')


def read(path):
    with open(path, encoding="utf-8") as f:
        return f.read()


def snake(word):
    """A word in snake case; one that begins with a capital is a type or a fact and stays."""
    if not word or not word[0].islower():
        return word
    word = re.sub(r"([a-z0-9])([A-Z][a-z])", r"\1_\2", word)
    word = re.sub(r"([a-z0-9])([A-Z])", r"\1_\2", word)
    return re.sub(r"[A-Z]+", lambda m: m.group(0).lower(), word)


# Words of std that the port script turned in part: getD is get_or today, flatMap flat_map, eqb and leb are nat_eq and nat_le.
OF_STD = {"getD": "get_or", "get_d": "get_or", "flatMap": "flat_map"}


def named_in(text):
    """What a file of specs/ or proofs/ declares: at a line's head, by let, or as a bound name."""
    for line in text.split("\n"):
        if line.lstrip().startswith(("--", "use ", "mod ", "pub mod ", "unfolding ")):
            continue
        head = DECLARED.match(line)
        if head:
            yield head.group(1)
        yield from (m.group(1) for m in LET.finditer(line))
        for m in BOUND.finditer(line):
            yield from m.group(1).split()


def uses(text):
    """The use lines: module, names, the alias of a whole module."""
    for line in text.split("\n"):
        m = USE.match(line)
        if m:
            names = [n.strip() for n in (m.group(2) or "").split(",") if n.strip()]
            yield m.group(1), names, m.group(3)


def merged(parts, known):
    """Parts that make up one known name, as is and live do, are that name."""
    out, i = [], 0
    while i < len(parts):
        j = len(parts)
        while j > i + 1 and "_".join(parts[i:j]) not in known:
            j -= 1
        out.append("_".join(parts[i:j]))
        i = j
    return out


def respelled(name, known):
    parts = merged(name.split("-"), known)
    turned = [snake(OF_STD.get(p, p)) for p in parts]
    for i, part in enumerate(turned):
        for old, new in (("get_d_", "get_or-"), ("flat_map_", "flat_map-")):
            if part.startswith(old):
                turned[i] = new + part[len(old):]
    out = turned[0]
    for i in range(1, len(turned)):
        out += ("-" if parts[i - 1] in known and parts[i] in known else "_") + turned[i]
    return out


def main():
    specs = glob.glob("crates/*/specs/**/*.antt", recursive=True)
    proofs = glob.glob("crates/*/proofs/**/*.antt", recursive=True)
    sources = glob.glob("crates/*/src/**/*.rt", recursive=True)
    edits = glob.glob("crates/*/must-fail/*.edit")
    pages = glob.glob("docs/**/*.md", recursive=True) + ["README.md"]
    own = set(re.sub(r"^crates/([^/]+)/.*", r"\1", p) for p in sources)

    library, aliases, words = set(), set(), {}
    for path in specs + proofs + sources:
        text = read(path)
        for module, names, alias in uses(text):
            parts = module.split(".")
            ours = len(parts) > 1 and parts[0] == "Rattle" and parts[1] in own and "Tie" not in parts
            if alias:
                aliases.add(alias)
            if not ours:
                library.update(n.split(" as ")[0].strip() for n in names)
            aliases.update(n.split(" as ")[1].strip() for n in names if " as " in n)
        words[path] = set(WORD.findall(text))

    in_source = set()
    for path in sources:
        code = re.sub(r"(requires|ensures)[^\n]*\{[^\n]*\}", "", read(path))
        in_source.update(re.findall(r"\b(?:fn|struct|enum|const|mod)\s+(\w+)", code))

    in_specs, in_proofs = set(), set()
    for path in specs:
        in_specs.update(named_in(read(path)))
    for path in proofs:
        if path.endswith("/Proof.antt"):
            # a goal of a function is named by Rattle: what answers it is turned with the proof, not here
            goals = set(re.findall(r"^\s*(?:pub )?(" + NAME + r")\s*:\s*tie\.", read(path), re.M))
            in_proofs.update(n for n in named_in(read(path)) if n not in goals and not n.endswith("-spec"))
        else:
            in_proofs.update(named_in(read(path)))
    known = in_specs | library | in_source | {"getD", "flatMap", "get_d"}
    known = {n for n in known if "-" not in n}

    turned = {}
    for name in in_specs | in_proofs | aliases:
        if name in library or name in in_source or name[0].isupper() and "-" not in name:
            continue
        new = respelled(name, known)
        if new != name:
            turned[name] = new
    # Definitions take their names first. What else was called so, or would be, gets '_lem'.
    defined = {}
    for old in sorted(turned, key=lambda o: "-" in o):
        if old in in_specs:
            defined.setdefault(turned[old], old)
    held = set().union(*words.values())
    moved = {}
    for old in sorted(turned):
        new = turned[old]
        if defined.get(new) == old:
            continue
        other = [o for o in turned if o != old and turned[o] == new and "-" not in o]
        if new in defined or new in held or other and "-" in old:
            moved[old] = new + "_lem"
    turned.update(moved)
    for new in sorted(defined):
        if new in in_proofs and new not in in_specs:
            moved[new] = new + "_lem"
    beside = {n: n + "_lem" for n in defined if n in in_proofs and n not in in_specs}

    def turned_at(m):
        word, text = m.group(0), m.string
        if word in beside:
            # a path, a field of a step or a function in src/ is no lemma
            after = text[m.end():m.end() + 1]
            before = text[m.start() - 1:m.start()]
            return word if "." in (after, before) else beside[word]
        return turned.get(word, word)

    def turn(text):
        return WORD.sub(turned_at, text)

    def outside_strings(text):
        out, at = [], 0
        for m in STRING.finditer(text):
            out += [turn(text[at:m.start()]), m.group(0)]
            at = m.end()
        return "".join(out) + turn(text[at:])

    for path in specs + proofs + sources + edits + pages:
        text = read(path)
        if path.endswith(".md"):
            new = re.sub(r"`[^`\n]*`", lambda m: turn(m.group(0)), text)
        elif path.endswith(".antt"):
            new = turn(text)
        else:
            new = outside_strings(text)
        if new != text:
            with open(path, "w", encoding="utf-8") as f:
                f.write(new)
    print(f"{len(turned)} names turned")
    for old in sorted(moved):
        print(f"{old}: {moved[old]}, beside a definition or a function of its name")
    if "--list" in sys.argv:
        for old in sorted(turned):
            print(f"{old} -> {turned[old]}")


main()
