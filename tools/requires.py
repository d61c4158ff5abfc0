#!/usr/bin/env python3
"""Prints what each public function of the crates asks of its callers: crate, function, and the text of its `requires`.

    tools/requires.py

A function that is exported to C (`#[unsafe(no_mangle)]`) has to ask nothing, since a caller in C proves nothing. The exit status is 0 if none of
them has a `requires`, 1 if one has, and 2 if the sources cannot be read or export nothing.
"""
import argparse
import glob
import os
import re
import sys

ROOT = os.path.join(os.path.dirname(os.path.abspath(__file__)), "..", "crates")

COMMENT = re.compile(r"//.*")
IMPLEMENTS = re.compile(r"^impl (\w+) \{", re.M)
FUNCTION = re.compile(r'^(?P<exported>[ \t]*#\[unsafe\(no_mangle\)\]\n)?(?P<indent>[ \t]*)(?P<public>pub )?(?:extern "C" )?fn (?P<name>\w+)(?=[<(])', re.M)
CLAUSE = re.compile(r"\s*(requires|ensures)\*?(?:\s+\w+)?\s*(?=\{)")
RESULT = re.compile(r"[^{]*?(?=\s(?:requires|ensures)\b|\{)")
BRACKETS = {"(": ")", "{": "}"}


class Function:
    """A function: its crate, its name with that of the type that it belongs to, and the texts of its `requires`."""

    def __init__(self, crate, name, found, asks):
        self.crate, self.name, self.asks = crate, name, asks
        self.is_public = bool(found["public"])
        self.is_exported = bool(found["exported"])


def closes(text, start):
    """The place behind the bracket that closes the one at `start`."""
    opened, closed, depth = text[start], BRACKETS[text[start]], 0
    for place in range(start, len(text)):
        depth += (text[place] == opened) - (text[place] == closed)
        if depth == 0:
            return place + 1
    raise ValueError("a bracket that is not closed")


def clauses(text, place):
    """The clauses of a contract, each with its keyword, from the parameters of a function on."""
    place = closes(text, text.index("(", place))
    found = []
    clause = CLAUSE.match(text, RESULT.match(text, place).end())
    while clause:
        end = closes(text, clause.end())
        found.append((clause[1], " ".join(text[clause.end() + 1 : end - 1].split())))
        clause = CLAUSE.match(text, end)
    return found


def owner(text, found):
    """The type that a method belongs to, with the sign behind it; nothing for a function that belongs to none."""
    types = [match[1] for match in IMPLEMENTS.finditer(text, 0, found.start())]
    return types[-1] + "::" if found["indent"] and types else ""


def functions_of(path):
    crate = os.path.relpath(path, ROOT).split(os.sep)[0]
    with open(path, encoding="utf-8") as file:
        text = COMMENT.sub("", file.read())
    matches = list(FUNCTION.finditer(text))
    if text.count("no_mangle") != sum(bool(found["exported"]) for found in matches):
        raise ValueError(f"{path} exports what is not seen to be a function")
    for found in matches:
        asks = [ask for keyword, ask in clauses(text, found.end()) if keyword == "requires"]
        yield Function(crate, owner(text, found) + found["name"], found, asks)


def show(functions):
    """A row for each function, and below it one for each further `requires`."""
    rows = [("crate", "function", "requires")]
    for function in functions:
        rows.append((function.crate, function.name, function.asks[0]))
        rows.extend(("", "", ask) for ask in function.asks[1:])
    wide, wider = (max(len(row[column]) for row in rows) for column in (0, 1))
    for crate, name, ask in rows:
        print(f"{crate:{wide}}  {name:{wider}}  {ask}")


def main():
    argparse.ArgumentParser(description=__doc__, formatter_class=argparse.RawDescriptionHelpFormatter).parse_args()
    paths = sorted(glob.glob(os.path.join(ROOT, "*", "src", "**", "*.rt"), recursive=True))
    try:
        functions = [function for path in paths for function in functions_of(path)]
    except (OSError, ValueError) as fault:
        print(f"The sources cannot be read: {fault}", file=sys.stderr)
        return 2
    exported = [function for function in functions if function.is_exported]
    if not exported:
        print("No function is exported.", file=sys.stderr)
        return 2
    show([function for function in functions if function.is_public and function.asks])
    asking = [function.name for function in exported if function.asks]
    for name in asking:
        print(f"{name} is exported, and has a requires.", file=sys.stderr)
    print(f"{len(exported)} exported functions, {len(asking) or 'none'} with a requires")
    return 1 if asking else 0


if __name__ == "__main__":
    sys.exit(main())
