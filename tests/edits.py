#!/usr/bin/env python3
"""Says which must-fail edits no longer fit: each text that an edit quotes must stand exactly once in its file.

rt ci says so too, but only when it comes to the edit; this takes no time. It doesn't try the edits.
"""
import pathlib
import sys

CRATES = pathlib.Path(__file__).resolve().parent.parent / "crates"


def faults(edit):
    """What is wrong with an edit, as lines. Its pairs are applied in order, as rt must-fail does."""
    crate = edit.parent.parent
    texts, path, old, pairs, found = {}, None, None, 0, []
    for line in edit.read_text().splitlines():
        if line.startswith("file: "):
            path = crate / line[len("file: "):]
        elif line.startswith("old: "):
            old = line[len("old: "):]
        elif line.startswith("new:"):
            new = line[len("new:"):].removeprefix(" ")
            pairs += 1
            if path is None or not path.is_file():
                found.append("no such file: %s" % path)
                continue
            if not old:
                found.append("a 'new:' without an 'old:'")
                continue
            text = texts.get(path, path.read_text())
            if text.count(old) != 1:
                found.append("%d times in %s: %s" % (text.count(old), path.relative_to(crate), old.strip()))
            texts[path] = text.replace(old, new)
            old = None
    if pairs == 0:
        found.append("no 'old:' and 'new:'")
    return found


def main():
    edits = sorted(CRATES.glob("*/must-fail/*.edit"))
    wrong = 0
    for edit in edits:
        for fault in faults(edit):
            print("%s: %s" % (edit.relative_to(CRATES.parent), fault))
            wrong += 1
    print("edits: %d, wrong: %d" % (len(edits), wrong))
    return 1 if wrong else 0


if __name__ == "__main__":
    sys.exit(main())
