#!/usr/bin/env python3
"""tools/docs.py [--check], at the top of the repository: holds the pages in docs/ to the tree.

The line counts of docs/READING.md are written (with --check: compared). Every name in backquotes on the pages, every room/wrong_answer and every path must be
in the tree: a definition, a function, an edit, a file. What is not is printed, and the status is 1. So it is with tests/count/README.md, which lists its files."""
import pathlib
import re
import sys

PAGES = ["README.md", "tests/count/README.md"] + [f"docs/{p}.md" for p in ("READING", "PROMISES", "DECISIONS", "TRACE", "CHECKING", "SPEED", "WORKING", "HOSTS")]
PLACES = ("crates", "hosts", "tests", "tools", "examples", ".ci")
FOREIGN = {"xxd", "cargo", "pkg-config"}
SOURCES = {".rt", ".antt", ".rs", ".py", ".h", ".c", ".toml", ".txt", ".edit", ""}


def lines_of(path):
    """the lines of a file of definitions, without comments, blanks and imports"""
    text = re.sub(r"^ *(?:pub )?use [^\n{]*(?:\{[^{}]*\})?", "", pathlib.Path(path).read_text(encoding="utf-8"), flags=re.M)
    return sum(1 for line in text.split("\n") if line.strip() and not line.lstrip().startswith("--"))


def counted(page):
    """READING.md with the line count of each row `| FILE[, FILE..] | LINES | ..` made true; a name alone stands in the folder that the table's head names"""
    folder = ""
    rows = []
    for row in page.split("\n"):
        head = re.match(r"\| file of (\S+) \| lines \|", row)
        if head:
            folder = head[1] + "/"
        elif row.startswith("| file |"):
            folder = ""
        cells = re.match(r"\| ([^|]+\.antt[^|]*) \| [\d, ]+ \| (.*)", row)
        if cells:
            files = re.findall(r"[\w/·]+\.antt", cells[1])
            row = f"| {cells[1]} | {', '.join(str(lines_of(folder + f)) for f in files)} | {cells[2]}"
        rows.append(row)
    return "\n".join(rows)


def strange(pages):
    """names on the pages that the tree does not have"""
    # tools/respell.py has names that were given up
    files = [f for place in PLACES for f in pathlib.Path(place).rglob("*") if f.is_file() and not {"target", "out", "respell.py"} & {*f.parts} and f.suffix in SOURCES]
    words = {w for f in files for w in re.findall(r"[^\s(){}\[\],;:.`\"|]+", f.read_text(encoding="utf-8", errors="replace"))}
    words |= {f.stem for f in files} | {f.name for f in files} | {f.name for f in pathlib.Path("crates").iterdir()}
    words |= {piece for w in list(words) for piece in re.split(r"[^\w'ᶠ₀-₉-]+", w)}
    rooms = {f.name for f in pathlib.Path("crates").iterdir()}
    names = {f.name for f in files}
    for page, text in pages.items():
        prose = re.sub(r"```.*?```", "", text, flags=re.S)
        prose = re.sub(r"^    .*$", "", prose, flags=re.M)
        for quoted in re.findall(r"`([^`\n]+)`", prose):
            if re.fullmatch(r"[\w-]+\.(rs|rt|antt|py|edit|h|c)", quoted) and quoted not in names:
                yield f"{page}: `{quoted}`: no such file"
            for name in re.findall(r"[A-Za-z_][\w'-]*[\w']", quoted if " " not in quoted else ""):
                if name not in words and name not in FOREIGN:
                    yield f"{page}: `{quoted}`: no {name} in the tree"
        for room, name in re.findall(r"(?<![\w/.])([a-z]+)/(\w+)(?![\w/.])", prose):
            if room in rooms and not list(pathlib.Path(f"crates/{room}").rglob(f"{name}.*")) and not pathlib.Path(f"crates/{room}/{name}").exists():
                yield f"{page}: {room}/{name}: no such edit or file"
        for path in re.findall(r"(?<![\w/.·])(?:crates|hosts|tests|tools|docs|examples)/[\w/.-]*\w", prose):
            if not pathlib.Path(path).exists():
                yield f"{page}: {path}: no such file"


def main():
    pages = {p: pathlib.Path(p).read_text(encoding="utf-8") for p in PAGES}
    reading = "docs/READING.md"
    right = counted(pages[reading])
    wrong = sorted(set(strange(pages)))
    if "--check" not in sys.argv:
        pathlib.Path(reading).write_text(right, encoding="utf-8")
    elif right != pages[reading]:
        wrong.append(f"{reading}: its line counts are not those of the files: run tools/docs.py")
    for line in wrong:
        print(line)
    return 1 if wrong else 0


sys.exit(main())
