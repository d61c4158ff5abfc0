#!/usr/bin/env python3
"""Counts the lines that a reader has to believe to take the page of demands at its word.

It follows names from the statements of crates/demands/proofs/Demands.antt to every definition that they rest on, through the
`use` lines, and counts the lines of each: code lines, without comments, imports and `unfolding`. Of a theorem only the statement
counts, since the prover has its proof. Types that the code declares (structs and enums in src/) count too.

A promise stands in the statements as what is known of a call. The prover shows it of every call of the exports, so nobody has to
believe its text; the last line says how many lines it would add.

    tools/lines_to_believe.py [--names]
"""
import os
import re
import sys

ROOT = os.path.join(os.path.dirname(os.path.abspath(__file__)), "..", "crates")
PAGE = ("demands", "proofs.Demands")
PROMISES = {"CheckPromise", "AdmitPromise", "LeftPromise", "JoinPromise", "FeedPromise", "LongestPromise"}

COMMENT = re.compile(r"(^|\s)--(\s.*)?$")
USE = re.compile(r"use (\S+?)\.\{(.*)\}$")
DECLARES = re.compile(r"((?:unfoldable |abbrev |pub )*)(?:(data|record) (\S+)|(\S+) :(?: |$))")
OURS = re.compile(r"Rattle\.(\w+)\.((?:specs|proofs)\..+)")
DECLARED = re.compile(r"specs\.declared\.(?:\w+\.)*?(\w+)(\.TheVariants)?$")


class Definition:
    """A declaration: what it is ('data', 'record', 'definition' or 'theorem'), and its lines."""

    def __init__(self, kind, line):
        self.kind = kind
        self.lines = [line]


class Module:
    def __init__(self, crate, name):
        self.imports = {}  # name here -> (module path, name there)
        self.definitions = {}
        self.constructors = {}  # constructor -> the data type that it belongs to
        with open(os.path.join(ROOT, crate, *name.split(".")) + ".antt", encoding="utf-8") as file:
            self.read(file.read().split("\n"))

    def read(self, lines):
        current = None
        for line in lines:
            line = COMMENT.sub("", line).rstrip()
            imported = USE.match(line)
            if imported:
                for entry in imported.group(2).split(","):
                    there, _, here = entry.strip().partition(" as ")
                    self.imports[here or there] = (imported.group(1), there)
            elif not line or line.lstrip().startswith("unfolding ") or re.match(r"(pub )?mod ", line):
                continue
            elif DECLARES.match(line):
                current = self.declare(line)
            elif current:
                self.definitions[current].lines.append(line)
                constructor = re.match(r"  ([^\s:]+) :", line)
                if constructor and self.definitions[current].kind == "data":
                    self.constructors[constructor.group(1)] = current

    def declare(self, line):
        modifiers, keyword, type_name, other_name = DECLARES.match(line).groups()
        opens = "unfoldable" in modifiers or "abbrev" in modifiers
        name = type_name or other_name
        self.definitions[name] = Definition(keyword or ("definition" if opens else "theorem"), line)
        return name


def declared_lines(crate, name):
    """The lines of a struct or enum that the crate's code declares."""
    for folder, _, files in os.walk(os.path.join(ROOT, crate, "src")):
        for file in files:
            with open(os.path.join(folder, file), encoding="utf-8") as source:
                found = re.search(r"^pub (?:struct|enum) %s \{.*?^\}" % name, source.read(), re.M | re.S)
            if found:
                return found.group(0).count("\n") + 1
    raise SystemExit(f"{crate} declares no {name}")


def statement(definition, name):
    """Of a theorem, the signature; of anything else, all of it."""
    if definition.kind != "theorem":
        return definition.lines
    lines = definition.lines
    proof = [place for place, line in enumerate(lines) if line.split(" ")[0] == name and place > 0]
    return lines[: proof[0]] if proof else lines


def words(lines):
    for line in lines:
        for word in re.split(r"[\s(){}\[\];,|λ]+", line):
            if word and not word.startswith("."):
                yield word.split(".")[0]


class Reader:
    def __init__(self, set_aside):
        self.set_aside = set_aside
        self.modules = {}
        self.counted = {}  # (crate, module, name) -> lines

    def module(self, place):
        if place not in self.modules:
            self.modules[place] = Module(*place)
        return self.modules[place]

    def follow(self, place, word):
        """Counts what a word names, if it names something: a definition here, or one that is imported from ours."""
        module = self.module(place)
        name = module.constructors.get(word, word)
        if name in module.definitions:
            self.count(place, name)
        elif name in module.imports and name not in self.set_aside:
            path, there = module.imports[name]
            ours = OURS.match(path)
            if ours and os.path.isdir(os.path.join(ROOT, ours.group(1))):
                self.follow_import(ours.group(1), ours.group(2), there)

    def follow_import(self, crate, path, name):
        declared = DECLARED.match(path)
        if declared:
            self.counted[(crate, "src", declared.group(1))] = declared_lines(crate, declared.group(1))
            return
        module = self.module((crate, path))
        if not any(name in names for names in (module.definitions, module.constructors)):
            raise SystemExit(f"{crate}, {path} has no {name}")
        self.follow((crate, path), name)

    def count(self, place, name):
        if (*place, name) in self.counted or name in self.set_aside:
            return
        lines = statement(self.module(place).definitions[name], name)
        self.counted[(*place, name)] = len(lines)
        for word in set(words(lines)):
            self.follow(place, word)

    def read_page(self):
        for name in list(self.module(PAGE).definitions):
            self.count(PAGE, name)
        return sum(self.counted.values())


def main():
    reader = Reader(PROMISES)
    believed = reader.read_page()
    modules = {}
    for (crate, module, name), lines in reader.counted.items():
        modules.setdefault((crate, module), []).append((name, lines))
    for (crate, module), names in sorted(modules.items()):
        listed = "   " + " ".join(name for name, _ in names) if "--names" in sys.argv else ""
        print(f"{sum(lines for _, lines in names):5}  {crate}.{module.split('.', 1)[-1]}{listed}")
    print(f"{believed:5}  lines to believe")
    print(f"{Reader(set()).read_page() - believed:5}  more in the promises, which the prover shows of every call")


main()
