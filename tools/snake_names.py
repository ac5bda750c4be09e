#!/usr/bin/env python3
"""Respells the repository's own definitions and lemmas: words in snake case, types in upper camel case.

usage: python3 tools/snake_names.py        at the top of the repository, once, right after the toolchain's own port script

A name is this repository's own where a .antt file of a crate declares it: a definition, a lemma, a record's field, a
parameter, a `let`. Names that the check makes (of goals, steps, arms and loops) and names of the library keep theirs.
Text is replaced in .antt files and in the clauses of .rt files; comments, strings and Rust names stay. In proof files a
name of the code inside a name that the check makes gets its underscores back.
It stops, and writes nothing, where two names would fall together in proof files or clauses. A definition may have the
name of the Rattle function that it is the meaning of.
"""

import os
import re
import sys

TOKEN = re.compile(r"[^\s(){}\[\].;,\"|]+")
DECLARED = re.compile(r"^\s*(?:abbrev |unfoldable |pub |record |ruleset )*([^\s:(){}.;,]+)(?: (?:\{[^}]*\}|\([^)]*\)|[^\s:(){}]+))* :(?: |$)")
BOUND = re.compile(r"[({]((?:[^\s:(){}.;,]+ )+): ")
LET = re.compile(r"\blet ([^\s:(){}.;,]+) (?=[:=(])")
LAMBDA = re.compile(r"λ ((?:[^\s:(){}.;,]+ ?)+)\. ")
EQUATION = re.compile(r"^\s*([^\s:(){}.;,]+)(?: (?:\([^)]*\)|[^\s=(){}]+))* = ")
MADE = re.compile(r"^\s*(?:abbrev |pub )*([^\s:(){}.;,]+) : goal\.")
GOALS = re.compile(r"^use Rattle\.[^{]*\.Goals\.\{([^}]*)\}")
USED = re.compile(r"^(?:ghost )?use ([^{]*)\.\{([^}]*)\}")

# Names that would fall together with another, and what they are called.
OTHERWISE = {"No-plan": "NoPlanWithin", "Too-many": "TooManyRows"}
# Names that the patterns above miss.
MORE = "Is-least Left-ended Left-rest Left-search exchanged-is is-s c-is n-is".split()
# Words of the check's own names, in which a dash now joins only the parts.
PARTS = "in-default in-err in-ok overflow-add overflow-sub overflow-mul overflow-cast slice-bounds invariant-of overflow-step".split()
IDENTIFIER = re.compile(r"\b[a-z][a-z0-9]*(?:_[a-z0-9]+)+\b")


def files(root):
    for folder, dirs, names in os.walk(os.path.join(root, "crates")):
        dirs[:] = sorted(d for d in dirs if d != "out")
        for name in sorted(names):
            if name.endswith((".antt", ".rt")):
                yield os.path.join(folder, name)


def read(path):
    with open(path, encoding="utf-8") as f:
        return f.read()


def respelled(name):
    if name in OTHERWISE:
        return OTHERWISE[name]
    parts = name.split("-")
    if name[:1].isupper():
        return "".join(p[:1].upper() + p[1:] for p in parts)
    return "_".join(parts)


def own_names(root, crates):
    own, made, library = {}, set(), set()
    for path in files(root):
        for line in read(path).splitlines():
            used = USED.match(line)
            if used:
                module = used.group(1)
                goals = module.endswith((".Goals", ".Given"))
                mine = any(module.startswith(f"Rattle.{c}.") for c in crates)
                for item in used.group(2).split(","):
                    word = item.split(" as ")[0].strip()
                    if goals:
                        made.add(word)
                    elif not mine:
                        library.add(word)
                continue
            if path.endswith(".rt") or line.lstrip().startswith("--"):
                continue
            m = MADE.match(line)
            if m:
                made.add(m.group(1))
                continue
            found = []
            m = DECLARED.match(line)
            if m:
                found.append(m.group(1))
            for m in BOUND.finditer(line):
                found += m.group(1).split()
            found += LET.findall(line)
            for m in LAMBDA.finditer(line):
                found += m.group(1).split()
            for name in found:
                if "-" in name.strip("-") and "◌" not in name:
                    own.setdefault(name, set()).add(path)
    for name in MORE:
        own.setdefault(name, set())
    return own, made, library


def with_parts(root, crate):
    """Turns a name that the check makes: the names of the code in it keep their underscores."""
    words = set(PARTS)
    for path in files(os.path.join(root)):
        if path.endswith(".rt") and os.sep + os.path.join("crates", crate, "src") + os.sep in path:
            words |= {w.replace("_", "-") for w in IDENTIFIER.findall(read(path))}
    many = re.compile(r"(?<![^-+])(" + "|".join(sorted(map(re.escape, words), key=len, reverse=True)) + r")(?![^-+])")
    return lambda name: many.sub(lambda m: m.group(1).replace("-", "_"), name)


def clause_lines(text):
    """For each line of a .rt file, whether it has ghost text."""
    ghost, depth = [], 0
    for line in text.splitlines():
        bare = line.lstrip()
        starts = bare.startswith(("ghost ", "ensures", "requires", "law ", "#[tactic"))
        if bare.startswith("//"):
            ghost.append(False)
            continue
        if depth or starts:
            ghost.append(True)
            depth += line.count("{") - line.count("}")
            if depth < 0 or (starts and depth == 0):
                depth = 0
        else:
            ghost.append(" ghost " in line or "ghost " in bare[:6])
    return ghost


def main():
    root = os.getcwd()
    crates = sorted(c for c in os.listdir(os.path.join(root, "crates")) if os.path.isdir(os.path.join(root, "crates", c, "src")))
    own, made, library = own_names(root, crates)
    turn = {n: respelled(n) for n in own if n not in made and n not in library}
    taken = {}  # each word of a proof file or a clause, with its crates
    for path in files(root):
        crate = os.path.relpath(path, root).split(os.sep)[1]
        text = read(path)
        lines = text.split("\n")
        if path.endswith(".rt"):
            lines = [l for l, g in zip(lines, clause_lines(text) + [False]) if g]
        for token in TOKEN.findall("\n".join(lines)):
            taken.setdefault(token, set()).add(crate)
    functions = {f for p in files(root) if p.endswith(".rt") for f in re.findall(r"\bfn (\w+)", read(p))}
    bad = [f"{n} -> {t}: stands already in {' '.join(sorted(taken[t]))}" for n, t in sorted(turn.items()) if t in taken and t not in functions]
    seen = {}
    for n, t in turn.items():
        if t in seen:
            bad.append(f"{n} and {seen[t]} -> {t}")
        seen[t] = n
    both = sorted((set(own) & made) | (set(own) & library))
    if both:
        print("left alone, since the check or the library has the name: " + ", ".join(both))
    if bad and "--force" not in sys.argv:
        print("\n".join(bad))
        print(f"{len(bad)} names fall together: nothing was written")
        return 1
    count, made_of = 0, {}
    for path in files(root):
        text = read(path)
        sub = lambda line: TOKEN.sub(lambda m: turn.get(m.group(0), m.group(0)), line)
        lines = text.split("\n")
        if path.endswith(("Answers.antt", "Invariants.antt")):
            crate = os.path.relpath(path, root).split(os.sep)[1]
            if crate not in made_of:
                made_of[crate] = with_parts(root, crate)
            kept = turn.keys() | library
            part = made_of[crate]
            sub = lambda line: TOKEN.sub(lambda m: turn.get(m.group(0), m.group(0) if m.group(0) in kept else part(m.group(0))), line)
        if path.endswith(".rt"):
            ghost = clause_lines(text) + [False]
            new = [sub(l) if g else l for l, g in zip(lines, ghost)]
        else:
            new = [l if l.lstrip().startswith("--") else sub(l) for l in lines]
        if new != lines:
            count += 1
            with open(path, "w", encoding="utf-8") as f:
                f.write("\n".join(new))
    print(f"{len(turn)} names respelled in {count} files")
    return 0


if __name__ == "__main__":
    raise SystemExit(main())
