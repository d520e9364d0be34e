#!/usr/bin/env python3
"""Lists the definitions that a reader of the theorem has to believe: those that the clauses of `run_command` lead to, through
the `use` lines of the files of specs/.

  tests/believed.py            how many definitions these are, and their lines without comments, imports and blank lines
  tests/believed.py --list     and each, by its file, with its lines

Words of the standard library, types of the code and the ghost members of traits (a disk, devices, rules) are not counted.
"""
import glob
import os
import re
import sys

CRATES = os.path.join(os.path.dirname(os.path.dirname(os.path.realpath(__file__))), "crates")
WORD = re.compile(r"[^\s(){}\[\],;.]+")
DOTTED = re.compile(r"([^\s(){}\[\],;.]+)\.([^\s(){}\[\],;.]+)")
BEGINS = re.compile(r"(?:(?:abbrev|unfoldable|pub|record|data) )*([^\s:({]+)")


def imports(lines):
    """Returns what `use` lines bring in: the crate and the path of each name, and of each module by its alias."""
    names, aliases = {}, {}
    for line in lines:
        found = re.match(r"(?:ghost |unfoldable |pub )*use Rattle\.(\w+)\.specs\.(.*?);?$", line)
        if not found:
            continue
        crate, rest = found.groups()
        if " as " in rest and "{" not in rest:
            path, alias = rest.split(" as ")
            aliases[alias.strip()] = (crate, path.strip())
            continue
        group = re.match(r"([\w.]*?)\.?\{(.*)\}$", rest)
        front, items = (group.group(1), group.group(2)) if group else ("", rest)
        for item in items.split(","):
            path, _, alias = item.strip().partition(" as ")
            path = f"{front}.{path}" if front else path
            names[alias or path.split(".")[-1]] = (crate, path)
    return names, aliases


class Module:
    """A file of specs/: its definitions by their names, each as its lines, and its imports."""

    def __init__(self, path):
        with open(path, encoding="utf-8") as file:
            lines = file.read().split("\n")
        self.names, self.aliases = imports(lines)
        self.definitions, self.owners = {}, {}
        name, inside = None, False
        for line in lines:
            text, indent = line.strip(), len(line) - len(line.lstrip())
            if not text:
                name = None
            elif text.startswith("module _"):
                name, inside = "parameters", True
                self.definitions.setdefault(name, []).append(line)
            elif not re.match(r"--|#|pub mod |(?:unfoldable |pub )*use ", text):
                if name == "parameters" and indent >= 4 and not re.match(r"(abbrev|unfoldable|pub|record|data)\b", text):
                    self.definitions[name].append(line)
                    continue
                if indent == (2 if inside and indent >= 2 else 0):
                    begins = re.match(r"(abbrev|unfoldable|pub|record|data)\b", text) or re.match(r"\S+ :", text)
                    if begins or name is None:
                        name = BEGINS.match(text).group(1)
                if name:
                    self.definitions.setdefault(name, []).append(line)
        for owner, text in self.definitions.items():
            if re.match(r"\s*(?:(?:abbrev|unfoldable|pub) )*data ", text[0]):
                for line in text[1:]:
                    constructor = re.match(r"\s*(\S+) :", line)
                    if constructor:
                        self.owners[constructor.group(1)] = owner


def read_modules():
    modules = {}
    for path in sorted(glob.glob(f"{CRATES}/*/specs/*.antt")):
        crate, _, file = path[len(CRATES) + 1 :].split("/")
        modules[crate, file[: -len(".antt")]] = Module(path)
    return modules


def find(modules, crate, path, depth=0):
    """Returns where a name is defined that a path leads to, through what files pass on; None for what is no definition."""
    module, name = modules.get((crate, path.split(".")[0])), path.split(".")[-1]
    if module is None or depth > 4:
        return None
    if name in module.definitions:
        return crate, path.split(".")[0], name
    if name in module.owners:
        return crate, path.split(".")[0], module.owners[name]
    if name in module.names:
        return find(modules, *module.names[name], depth + 1)
    return None


def cited(modules, own, text, names, aliases):
    """Returns the definitions that a text cites, which stands in the module `own`, or in code."""
    found = {find(modules, crate, f"{path.split('.')[0]}.{name}") for alias, name in DOTTED.findall(text) if alias in aliases
             for crate, path in [aliases[alias]]}
    words = set(WORD.findall(text))
    here = modules[own] if own else None
    for word in words:
        if here and (word in here.definitions or word in here.owners):
            found.add((*own, here.owners.get(word, word)))
        elif word in names:
            found.add(find(modules, *names[word]))
    infix = {name for name in names if "◌" in name and name.replace("◌", "") in words}
    found |= {find(modules, *names[name]) for name in infix}
    if here:
        found |= {(*own, name) for name in here.definitions if "◌" in name and name.replace("◌", "") in words}
    return found - {None}


def believed(modules):
    with open(f"{CRATES}/psa_command/src/command.rt", encoding="utf-8") as file:
        code = file.read()
    clauses = code[code.index("pub fn run_command") :]
    todo = cited(modules, None, clauses[: clauses.index("\n{")], *imports(code.split("\n")))
    seen = set()
    while todo:
        crate, file, name = todo.pop()
        seen.add((crate, file, name))
        module = modules[crate, file]
        lines = module.definitions[name]
        more = cited(modules, (crate, file), "\n".join(lines), module.names, module.aliases)
        if "parameters" in module.definitions and lines[0].startswith("  "):
            more.add((crate, file, "parameters"))
        todo |= more - seen
    return seen


def main():
    modules = read_modules()
    seen = believed(modules)
    lines = {at: len(modules[at[:2]].definitions[at[2]]) for at in seen}
    print(len(seen), "definitions,", sum(lines.values()), "lines")
    if "--list" in sys.argv[1:]:
        for crate, file, name in sorted(seen):
            print(f"{crate}/specs/{file} {name} {lines[crate, file, name]}")


main()
