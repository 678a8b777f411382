#!/usr/bin/env python3
"""tools/edits.py, at the top of the repository: whether each must-fail edit still fits the file that it edits. It takes a second, and the trial of an edit a check of its crate.

An edit has lines `file: PATH`, `old: TEXT` and `new: TEXT`; what is before them says what is right. Each `old:` must stand in its file exactly once, after the edits before
it, and be changed by its `new:`. What does not is printed, and the status is 1."""
import pathlib
import sys


def faults(edit):
    """what is wrong with an edit"""
    crate = edit.parent.parent
    texts, name, old, pairs = {}, None, None, 0
    for line in edit.read_text(encoding="utf-8").split("\n"):
        if line.startswith("file: "):
            name = line[6:]
        elif line.startswith("old: "):
            old = line[5:]
        elif line.startswith("new:"):
            new = line[4:].removeprefix(" ")
            pairs += 1
            path = crate / (name or "")
            if name is None or name.split("/")[0] not in ("src", "specs", "proofs") or not path.is_file():
                yield f"`file: {name}` is no file of the crate"
                return
            text = texts.get(name) or path.read_text(encoding="utf-8")
            found = text.count(old) if old else 0
            if found != 1:
                yield f"`old: {old}` stands {found} times in {path}"
            elif new == old:
                yield "`new:` is the same as `old:`"
            else:
                texts[name] = text.replace(old, new)
            old = None
    if not pairs:
        yield "it has no `old:` with a `new:`"


def main():
    edits = sorted(pathlib.Path("crates").glob("*/must-fail/*.edit"))
    wrong = [f"{edit}: {fault}" for edit in edits for fault in faults(edit)]
    for line in wrong:
        print(line)
    return 1 if wrong or not edits else 0


sys.exit(main())
