#!/usr/bin/env python3
"""Brings the repository's own definitions, fields, constructors and lemmas to snake case.

usage: python3 tools/respell.py [--list]     once, at the top, after the toolchain's own script has been run

Renamed are names that are declared in crates/*/specs and in crates/*/proofs/*.antt, where they have a dash or a
hump, and the variables of these files. Names of the library and names that the check makes stay.
"""
import glob
import re
import sys

TOKEN = re.compile(r"(?<![\w'-])[^\W\d][\w']*(?:-[\w']+)*")
DECLARED = re.compile(r"^\s*(?:abbrev |unfoldable )?(?:pub )?(?:open )?([^\W\d][\w'-]*) :(?!:)", re.M)
IMPORT = re.compile(r"^use ([\w.'-]+)\.\{([^}]*)\}", re.M)
PLAIN = re.compile(r"--.*")


def snake(name):
    name = name.replace("-", "_")
    return re.sub(r"(?<=[a-z0-9])([A-Z])", lambda m: "_" + m.group(1).lower(), name)


# These would fall together with the definition of that name.
APART = {"bind-by": "bind_by_lem", "bound-groups": "bound_groups_lem", "is-core": "is_core_lem", "new-of": "new_of_lem"}


def turned(name):
    return APART.get(name, snake(name))


def wants(name):
    return not name[0].isupper() and snake(name) != name


def lemma_files():
    return sorted(glob.glob("crates/*/specs/*.antt") + glob.glob("crates/*/proofs/*.antt"))


def answer_files():
    return sorted(set(glob.glob("crates/*/proofs/**/*.antt", recursive=True)) - set(lemma_files()))


def from_library(paths):
    """Names that are imported from the toolchain's library."""
    found = set()
    for path in paths:
        for module, names in IMPORT.findall(open(path, encoding="utf-8").read()):
            if not re.match(r"Rattle\.(?!std\b)", module):
                for name in re.split(r",\s*", names):
                    found.update(part for part in name.split(" as ")[:1])
    return found


def own_names():
    """Declared names of specs/ and of the lemma files, and every variable in them."""
    library = from_library(lemma_files() + answer_files())
    declared, local = set(), set()
    for path in lemma_files():
        text = PLAIN.sub("", open(path, encoding="utf-8").read())
        declared.update(n for n in DECLARED.findall(text) if wants(n))
        local.update(n for n in TOKEN.findall(re.sub(IMPORT, "", text)) if wants(n))
    # lemmas that stand beside the answers
    for path in answer_files():
        text = PLAIN.sub("", open(path, encoding="utf-8").read())
        for line in text.split("\n"):
            m = DECLARED.match(line)
            if m and wants(m.group(1)) and f"goal.{m.group(1)}" not in line:
                declared.add(m.group(1))
    return declared - library, local - library


def one(m, names):
    """A name that the check makes, behind `c.`, is that of a function of src/."""
    made = re.search(r"\b(?:c|goal)\.$", m.string[: m.start()])
    return m.group(0) if m.group(0) not in names else snake(m.group(0)) if made else turned(m.group(0))


def turn(text, names, comment, skip_strings):
    """The text with these names turned; after `comment` only names with a hump."""
    out = []
    for line in text.split("\n"):
        at = line.find(comment) if comment else -1
        code, rest = (line, "") if at < 0 else (line[:at], line[at:])
        parts = re.split(r'("(?:[^"\\]|\\.)*")', code) if skip_strings else [code]
        parts = [p if i % 2 else TOKEN.sub(lambda m: one(m, names), p) for i, p in enumerate(parts)]
        rest = TOKEN.sub(lambda m: snake(m.group(0)) if m.group(0) in names and "-" not in m.group(0) else m.group(0), rest)
        out.append("".join(parts) + rest)
    return "\n".join(out)


def main():
    declared, local = own_names()
    if "--list" in sys.argv:
        for name in sorted(declared | local):
            print(name, turned(name), "declared" if name in declared else "local")
        return
    plans = [(p, declared | local, "--", False) for p in lemma_files()]
    plans += [(p, declared, "--", False) for p in answer_files()]
    plans += [(p, declared, "//", True) for p in sorted(glob.glob("crates/*/src/**/*.rt", recursive=True))]
    plans += [(p, declared, None, True) for p in sorted(glob.glob("crates/*/must-fail/*.edit"))]
    humps = {n for n in declared if "-" not in n}
    plans += [(p, humps, None, False) for p in ["README.md"] + sorted(glob.glob("docs/*.md"))]
    for path, names, comment, skip in plans:
        old = open(path, encoding="utf-8").read()
        new = turn(old, names, comment, skip)
        if new != old:
            open(path, "w", encoding="utf-8").write(new)


main()
