#!/usr/bin/env python3
"""Lists what the .rt and .antt files below a folder say twice: runs of lines that are equal, or with --shape equal once names and
numbers are blanked. A row is a place to look, not a verdict.

    tools/repeats.py [DIR] [--min LINES] [--most ROWS] [--shape] [--since REV]

--since REV keeps the pairs of which one side stands in lines added since that commit. Blank lines, comments, imports, the names of
goals and answers that the prover finds by itself are passed over.
"""
import argparse
import os
import re
import subprocess
from collections import defaultdict

PASSED_OVER = re.compile(r"^\s*(--|//|use |ghost use |mod |pub mod |pub use |unfolding |$|[)}\]];?,?$)|search rules$|: goal\.")
COMMENT = re.compile(r"(--|//).*")
NAME = re.compile(r"[\w·'₀-₉-]+")
HUNK = re.compile(r"@@ -\S+ \+(\d+)(?:,(\d+))?")
MOST_PLACES = 8  # of one run that are compared with each other


def options():
    found = argparse.ArgumentParser(description=__doc__, formatter_class=argparse.RawDescriptionHelpFormatter)
    found.add_argument("dir", nargs="?", default="crates")
    found.add_argument("--min", type=int, default=6)
    found.add_argument("--most", type=int, default=12)
    found.add_argument("--shape", action="store_true")
    found.add_argument("--since")
    return found.parse_args()


def files_below(folder):
    """The files to look at."""
    found = []
    for path, _, names in os.walk(folder):
        if not {"out", "target"} & set(path.split(os.sep)):
            found += [os.path.join(path, name) for name in names if name.endswith((".rt", ".antt"))]
    return sorted(found)


def lines_of(path, shape):
    """The lines of a file that count: the number and the text of each."""
    with open(path, encoding="utf-8", errors="replace") as file:
        for number, text in enumerate(file, 1):
            text = re.sub(r"\s+", " ", COMMENT.sub("", text)).strip()
            if len(text) >= 4 and not PASSED_OVER.search(text):
                yield number, NAME.sub("x", text) if shape else text


def added_since(revision):
    """The numbers of the lines added since a commit, by file."""
    found, path = defaultdict(set), None
    diff = subprocess.run(["git", "diff", "-U0", revision], capture_output=True, text=True).stdout
    for line in diff.split("\n"):
        hunk = HUNK.match(line)
        if line.startswith("+++ b/"):
            path = line[len("+++ b/") :]
        elif hunk and path:
            found[path] |= set(range(int(hunk[1]), int(hunk[1]) + int(hunk[2] or 1)))
    return found


def places_by_run(text, least):
    """Where each run of so many lines stands: the file and the index of its first line."""
    found = defaultdict(list)
    for path, lines in text.items():
        for at in range(len(lines) - least + 1):
            found[tuple(line for _, line in lines[at : at + least])].append((path, at))
    return found.values()


def equal_lines(text, first, second):
    """How many lines are equal from two places on; a run does not reach into itself."""
    (path, at), (other, there) = first, second
    count = 0
    while at + count < len(text[path]) and there + count < len(text[other]):
        if text[path][at + count][1] != text[other][there + count][1] or (path == other and at + count >= there):
            break
        count += 1
    return count


def pairs(text, least):
    """The pairs of equal runs, each as long as it goes: its length and its two places."""
    seen = set()
    for places in places_by_run(text, least):
        for first in places[:MOST_PLACES]:
            for second in places[:MOST_PLACES]:
                overlap = first[0] == second[0] and second[1] - first[1] < least
                if first >= second or overlap or (first, second) in seen:
                    continue
                count = equal_lines(text, first, second)
                seen.update(((first[0], first[1] + n), (second[0], second[1] + n)) for n in range(count))
                yield count, first, second


def stretch(text, place, count):
    """The file and the numbers of the first and the last line of a run."""
    path, at = place
    return path, text[path][at][0], text[path][at + count - 1][0]


def is_fresh(added, path, first, last):
    return set(range(first, last + 1)) <= added[os.path.normpath(path)]


def main():
    chosen = options()
    text = {path: list(lines_of(path, chosen.shape)) for path in files_below(chosen.dir)}
    rows = [(count, stretch(text, first, count), stretch(text, second, count)) for count, first, second in pairs(text, chosen.min)]
    if chosen.since:
        added = added_since(chosen.since)
        rows = [row for row in rows if is_fresh(added, *row[1]) or is_fresh(added, *row[2])]
    rows.sort(key=lambda row: -row[0])
    for count, (path, first, last), (other, begin, end) in rows[: chosen.most]:
        print(f"{count:4} lines  {path}:{first}-{last}  ~  {other}:{begin}-{end}")
    print(f"{len(rows)} pairs in {len(text)} files" + (f", {chosen.most} shown" if len(rows) > chosen.most else ""))


if __name__ == "__main__":
    main()
