#!/usr/bin/env python3
"""tools/respell.py, at the top of the repository, once, after port.py: the project's own definitions and lemmas in the kit's spelling.

What the project's .antt files declare is written in snake case: `squaredReadings` becomes `squared_readings`, `write-length` stays where a dash joins two names and
becomes `write_length` where it joins a plain word to one. Types, facts and modules keep their capital. Names of Rattle's own and functions of src/ are left as they are.
The pages (where a name stands between backticks) follow; the must-fail edits are brought over after it. `--say` prints the renamings and the names that would fall together, and writes nothing."""
import pathlib
import re
import subprocess
import sys

DECLARED = re.compile(r"^\s*(?:(?:abbrev|pub|unfoldable|data|record|syntax|irreducible)\s+)*([^\s:(){},.;«»]+)\s*(?:\(.*?\)|\{.*?\})*\s*:(?:\s|$)")
TOKEN = re.compile(r"[^\s(){}\[\],.;:\"`«»]+")
LEFT = {"κs", "xNN", "xFF", "xFE", "x7F", "x5Cb", "x0A"}
# words of the kit's library that the lemmas of this repository are named after
KIT = set("append length take drop map set get_or cond eqb ltb leb replicate nat_abs pos negsuc suc zero not sum all last reverse filter min max to_z of_z".split())
# a lemma that would have its function's name gets `_lem`
LEMMAS = set("adds-up against-fixed base-words bench-text by-head bytes-by card-by deviation-lines deviation-of differences-parameters differences-verdict group-size has-addition in-digits in-first in-second no-deviation no-spread on-left on-right practice-job practice-readings restraint-fits spreading-of the-counts uncertainty-rows in-groups in-range in-float bit-or spread-of value-of".split())
# names that a renamed definition would meet in one file: the file, the name, its new name
LOCAL = [
    ("claims/proofs/Sheets.antt", "differs_at", "differs_at_lem"),
    ("demands/proofs/Cards.antt", "laid_out", "laid_out_lem"),
    ("laws/proofs/Grouping.antt", "list_length", "list_length_lem"),
    ("laws/proofs/Grouping.antt", "object_of", "object_of_lem"),
    ("groups/proofs/judging/Tables.antt", "row_more", "row_more_lem"),
    ("groups/proofs/judging/row_alike/Proof.antt", "row_more", "row_more_lem"),
    ("laws/proofs/CardsNumbers.antt", "signed_word", "signed_word_lem"),
    ("laws/proofs/CardsRestraint.antt", "signed_word", "signed_word_lem"),
    ("laws/proofs/Writing.antt", "third_at", "third_start"),
    ("practice/proofs/readings/practice/Proof.antt", "told_at", "told_case"),
]
MADE = re.compile(r"^(returns|invariant|decreases|in_ok|in_err|overflow|else\d*|then\d*|if\d*|loop\d*)(-|$)")


def snake(name):
    """`squaredReadings` as `squared_readings`; a name with a capital in front keeps it"""
    head, rest = (name[0], name[1:]) if name[:1].isupper() else ("", name)
    rest = re.sub(r"(?<=[a-z0-9])([A-Z])", lambda m: "_" + m.group(1).lower(), rest)
    return head + rest


def sources():
    """the .antt files of the crates"""
    return [p for folder in ("specs", "proofs") for p in sorted(pathlib.Path("crates").glob(f"*/{folder}/**/*.antt")) if "/out/" not in str(p)]


def declared():
    """each declared name with whether it is a definition (and not a lemma)"""
    names = {}
    for path in sources():
        for line in path.read_text(encoding="utf-8").split("\n"):
            if line.lstrip().startswith("--"):
                continue
            found = DECLARED.match(line)
            if found:
                name = found.group(1)
                is_word = bool(re.match(r"\s*(abbrev|unfoldable|pub abbrev|data|record|pub data|pub record)\b", line)) or "/specs/" in str(path)
                names[name] = names.get(name, False) or is_word
    return names


def renamings():
    names = declared()
    words = {n for n, is_word in names.items() if is_word and "-" not in n} | KIT
    text = "\n".join(p.read_text(encoding="utf-8") for p in sources())
    used = set(TOKEN.findall(re.sub(r"--.*", "", text)))
    moved = {}
    for name in sorted(used):
        if name in LEFT or "◌" in name or re.search(r"_[A-Z]", name) or MADE.match(name):
            continue
        new = name
        if name == "sumℕ":
            new = "sum_ℕ"
        camel = re.match(r"^[a-z][\w'-]*[a-z0-9][A-Z]\w*", name) and re.search(r"[a-z0-9][A-Z]", name)
        if not (name in names or (camel and "-" not in name)):
            continue
        if camel and not name[0].isupper():
            new = "-".join(snake(part) if not part[:1].isupper() else part for part in name.split("-"))
        if name in names and "-" in name and not re.match(r"^[^\w]", name):
            parts = name.split("-")
            made = snake(parts[0]) if not parts[0][:1].isupper() else parts[0]
            for left, right in zip(parts, parts[1:]):
                plain = not left or not right or not re.match(r"^[\w']+$", left) or not re.match(r"^[\w']+$", right)
                joins = plain or (len(parts) == 2 and left in words and right in words and len(left) > 1 and len(right) > 1 and right not in ("spec", "determined"))
                made += ("-" if joins else "_") + (snake(right) if not right[:1].isupper() else right)
            new = made
        if name in LEMMAS:
            new = name.replace("-", "_") + "_lem"
        if new != name:
            moved[name] = new
    return moved, used


def together(moved, used):
    """renamings whose new name stands already, or is another's too"""
    back = {}
    for old, new in moved.items():
        back.setdefault(new, []).append(old)
    rust = {}
    for path in sorted(pathlib.Path("crates").glob("*/src/**/*.rt")):
        for word in set(TOKEN.findall(re.sub(r"//.*", "", path.read_text(encoding="utf-8")))):
            rust.setdefault(word, []).append(str(path))
    for new, olds in sorted(back.items()):
        if len(olds) > 1:
            yield f"{' and '.join(olds)} fall together as {new}"
        if new in used:
            yield f"{olds[0]}: {new} stands already in specs/ or proofs/"
        if new in rust:
            yield f"{olds[0]}: {new} stands already in {' '.join(rust[new][:6])}"


def turned(text, moved):
    """text with its tokens renamed, strings apart"""
    parts = re.split(r'("(?:[^"\\\n]|\\.)*")', text)
    return "".join(part if at % 2 else TOKEN.sub(lambda m: moved.get(m.group(0), m.group(0)), part) for at, part in enumerate(parts))


def main():
    moved, used = renamings()
    if "--say" in sys.argv:
        for old, new in sorted(moved.items()):
            print(f"{old} -> {new}")
        for line in together(moved, used):
            print("look:", line)
        return 0
    for name, old, new in LOCAL:
        path = pathlib.Path("crates") / name
        path.write_text(turned(path.read_text(encoding="utf-8"), {old: new}), encoding="utf-8")
    for path in sources():
        path.write_text(turned(path.read_text(encoding="utf-8"), moved), encoding="utf-8")
    for path in sorted(pathlib.Path("crates").glob("*/src/**/*.rt")):
        path.write_text(turned(path.read_text(encoding="utf-8"), {o: n for o, n in moved.items() if not re.fullmatch(r"[a-z]+", o)}), encoding="utf-8")
    for path in [pathlib.Path("README.md"), *sorted(pathlib.Path("docs").glob("**/*.md"))]:
        page = path.read_text(encoding="utf-8")
        path.write_text(re.sub(r"`[^`\n]*`", lambda m: turned(m.group(0), moved), page), encoding="utf-8")
    for crate in sorted({p.parent.parent if p.parent.name == "src" else p.parents[len(p.parents) - 3] for p in pathlib.Path("crates").glob("*/src/**/*.rt")}):
        subprocess.run(["rt", "fmt"], cwd=crate, stdout=subprocess.DEVNULL, check=True)
    return 0


if __name__ == "__main__":
    sys.exit(main())
