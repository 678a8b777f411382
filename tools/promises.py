#!/usr/bin/env python3
"""promises.py [--check]: the tables of docs/PROMISES.md, from the sources: for each function that another crate can name its promise and the wrong answers that are
tried. Run it at the top of the repository; it writes the tables below the page's line '<!-- tables -->', or, with --check, says where the page differs from them.
A wrong answer stands under each public function that goes through the code that it changes; one that is put into a promise, or into a law, is marked.
The status is 0 only where every public function has a promise, a theorem that the promise determines the outcome, no `requires`, and two wrong answers (the calls for
C, which lay out what the calls below them answer, are tried kind by kind: they need none of their own), and the page, if it is looked at, has these tables."""
import glob
import os
import re
import sys

import sources

MARK = "<!-- tables -->"


def reached(name, calls):
    """the functions that a function goes through"""
    seen, left = {name}, [name]
    while left:
        for called in calls[left.pop()] - seen:
            seen.add(called)
            left.append(called)
    return seen


def edits(crate, every):
    """the wrong answers of a crate: label -> the functions whose text it changes"""
    found = {}
    for edit in sorted(glob.glob(f"crates/{crate}/must-fail/*.edit")):
        label, file, touched, of_code = os.path.basename(edit)[:-5], None, set(), False
        for line in sources.read(edit).split("\n"):
            if line.startswith("file: "):
                file = f"crates/{crate}/" + line[6:].strip()
            if line.startswith("old: ") and file and file.endswith(".rt"):
                inside = [name for name, (function, path) in every.items() if path == file and line[5:] in function.text]
                # a constant of the file counts for every function that names it
                constant = re.match(r"(?:pub(?:\(crate\))? )?const (\w+)", line[5:])
                if constant:
                    inside = [name for name, (function, _) in every.items() if re.search(rf"\b{constant[1]}\b", function.code)]
                    of_code = True
                touched.update(inside)
                of_code = of_code or any(line[5:] in every[name][0].code for name in inside)
        found[label if of_code else label + " (promise)"] = touched
    return found


def tables():
    """what public functions lack, and the tables"""
    short, page = [], []
    for crate in sources.crates():
        own_functions = {function.name: (function, path) for path, _ in sources.files(crate) for function in sources.functions(path)}
        public = [name for name, (function, _) in own_functions.items() if function.public]
        # methods have no rows of their own, but functions go through them
        every = {method.name: (method, path) for path, _ in sources.files(crate) for method in sources.methods(path)} | own_functions
        if not public or os.path.exists(f"crates/{crate}/src/main.rt"):
            continue
        calls = {name: {c for c in every if c != name and re.search(rf"\b{c}\(", function.code)} for name, (function, _) in every.items()}
        theorems = "\n".join(sources.read(path) for path in glob.glob(f"crates/{crate}/proofs/*Determined.antt"))
        tried = edits(crate, every)
        page += [f"\n## {crate}\n", "| function | promise | wrong answers |", "|---|---|---|"]
        for name in public:
            function = every[name][0]
            own = [label for label, touched in tried.items() if name in touched]
            wrong = own + [label for label, touched in tried.items() if name not in touched and touched & reached(name, calls)]
            found = {
                "a promise": function.ensures,
                "a theorem": f"pub {name}_determined :" in theorems,
                "a face without requires": not function.requires,
                "two wrong answers": len(wrong) >= 2 or crate == "api",
            }
            lacks = [what for what, stands in found.items() if not stands]
            if lacks:
                short.append(f"{crate}::{name} lacks {', '.join(lacks)}")
            page.append(f"| `{name}` | {'<br>'.join(f'`{clause}`' for _, clause in function.ensures)} | {', '.join(wrong)} |")
    return short, "\n".join(page).strip("\n") + "\n"


def main():
    short, made = tables()
    for line in short:
        print(line, file=sys.stderr)
    head, _, stands = sources.read("docs/PROMISES.md").partition(MARK + "\n")
    if sys.argv[1:] == ["--check"]:
        has, wants = stands.strip("\n").split("\n"), made.strip("\n").split("\n")
        if has != wants:
            at = next(i for i, (a, b) in enumerate(zip(has + [""], wants + [""])) if a != b)
            print("docs/PROMISES.md is not what tools/promises.py writes. First line that differs below its mark:", at + 1)
            return 1
    else:
        with open("docs/PROMISES.md", "w", encoding="utf-8") as file:
            file.write(head + MARK + "\n\n" + made)
    return 1 if short else 0


sys.exit(main())
