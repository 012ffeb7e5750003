#!/usr/bin/env python3
"""Brings the names of definitions and lemmas to snake case, once, after port.py.

usage: python3 tools/respell_names.py        at the top of the repository

Words (functions, lemmas, fields of records, constructors) of specs/ and proofs/ that are written with humps or dashes get underscores. Types keep
their capital. Functions of src/, goals and what a library defines keep their names. A lemma whose new name is taken gets '_lem' after it.
The crate core, whose name a library has, becomes zhvanirek_core.
"""
import collections
import os
import re
import sys

TOKEN = re.compile(r"[^\s(){}\[\],;.`\"]+")
HEAD = re.compile(r"^\s*(?:(?:abbrev|unfoldable|opaque|private|mutual)\s+)*(?:pub\s+)?(?:(?:record|data)\s+)?([^\s:(){}\[\],;.]+(?:\s+[^\s:(){}\[\],;.=]+)*)(?:\s+[({][^=]*)?\s+:(?:\s|$)")
USE = re.compile(r"^\s*(?:pub |ghost )*use ([^\s{]+?)\.\{([^}]*)\}", re.M)


def files(ending):
    for folder, dirs, names in os.walk("crates"):
        dirs[:] = sorted(d for d in dirs if d not in ("out", "target"))
        for name in sorted(names):
            if name.endswith(ending):
                yield os.path.join(folder, name)


def read(path):
    with open(path, encoding="utf-8") as f:
        return f.read()


def defined(text):
    """The names that a file of definitions or lemmas gives a type."""
    for line in text.split("\n"):
        if line.lstrip().startswith("--"):
            continue
        m = HEAD.match(line)
        if m:
            yield from m.group(1).split()


def snake(name):
    return re.sub(r"(?<=[a-z0-9'])(?=[A-Z])", "_", name).replace("-", "_").lower()


def wanted(name):
    """A word, not a type or an operator, with a hump or a dash."""
    return name[0].islower() and re.sub(r"[-_']", "", name).isalnum() and snake(name) != name


def step_aside(name):
    """A lemma that port.py turned to the name of a definition gets '_lem' after it, where it stands and where it is imported."""
    homes = [p for p in files(".antt") if "/proofs/" in p and os.path.basename(p) != "Proof.antt" and name in defined(read(p))]
    modules = {"Rattle." + p[len("crates/"):-len(".antt")].replace("/", ".") for p in homes}
    for path in files(".antt"):
        text = read(path)
        cites = any(m.group(1) in modules and name in [w.strip() for w in m.group(2).split(",")] for m in USE.finditer(text))
        if path in homes or cites:
            new = re.sub(r"(?<![\w'.-])" + re.escape(name) + r"(?![\w'-])", name + "_lem", text)
            with open(path, "w", encoding="utf-8") as f:
                f.write(new)
    print(f"{name} -> {name}_lem in {', '.join(sorted(modules))}")
    return bool(homes)


def rename_core():
    """The crate core under its new name."""
    if os.path.isdir("crates/core"):
        os.rename("crates/core", "crates/zhvanirek_core")
    with open("crates.txt", encoding="utf-8") as f:
        listed = f.read()
    with open("crates.txt", "w", encoding="utf-8") as f:
        f.write(re.sub(r"(?m)^([^#\n]*?)\bcore\b", r"\1zhvanirek_core", listed))
    for path in [*files(".antt"), *files(".rt"), *files(".edit")]:
        text = read(path)
        new = text.replace("Rattle.core.specs.Prelude", "Rattle.std.specs.Prelude")
        new = re.sub(r"\bRattle\.core\.", "Rattle.zhvanirek_core.", new)
        if not path.endswith(".antt"):
            new = re.sub(r"(?<![\w:])core::", "zhvanirek_core::", new)
        if new != text:
            with open(path, "w", encoding="utf-8") as f:
                f.write(new)


def main():
    rename_core()
    own, imported = set(), set()
    for path in files(".antt"):
        text = read(path)
        for m in USE.finditer(text):
            module = m.group(1).split(".")
            if module[0] != "Rattle" or not os.path.isdir("crates/" + module[1]):
                imported.update(w.strip().split(" as ")[0] for w in m.group(2).split(","))
        if "/specs/" in path or os.path.basename(path) not in ("Proof.antt", "Answers.antt", "Invariants.antt"):
            own.update(defined(text))
    names = sorted(n for n in own if wanted(n) and n not in imported)
    turned, taken = {}, imported | {n for n in own if n not in names}
    by_new = collections.defaultdict(list)
    for n in names:
        by_new[snake(n)].append(n)
    for new, olds in sorted(by_new.items()):
        # a definition, in camel case, keeps the plain name before a lemma, with dashes
        olds.sort(key=lambda n: ("-" in n, n))
        free = new not in taken or (new not in imported and "-" not in olds[0] and step_aside(new))
        for n in olds:
            if free:
                turned[n] = new
                free = False
            else:
                turned[n] = new + "_lem"
                print(f"{n} -> {turned[n]}")
    print(f"{len(turned)} names")
    for path in sorted([*files(".antt"), *files(".rt"), *files(".edit")]):
        text = read(path)
        new = TOKEN.sub(lambda m: turned.get(m.group(0), m.group(0)), text)
        if new != text:
            with open(path, "w", encoding="utf-8") as f:
                f.write(new)


if __name__ == "__main__":
    sys.exit(main())
