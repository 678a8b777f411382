"""What the tools read of the sources: the crates in the order of crates.txt, and the functions of a file with their clauses."""
import collections
import glob
import os
import re

# A function of a source file: whether another crate can name it, its type parameters as written, its parameters (name, type), its clauses of the two kinds (name or none, text),
# its code, and all of its text.
Function = collections.namedtuple("Function", "name public generic parameters requires ensures code text")


def read(path):
    with open(path, encoding="utf-8") as file:
        return file.read()


def crates():
    """the names that crates.txt lists"""
    rows = [row.partition("#")[0].partition(":")[0].split() for row in read("crates.txt").split("\n")]
    return [row[0] for row in rows if row]


def files(crate):
    """the paths of a crate's sources, each with the path of its module, none for lib.rt and main.rt"""
    for path in sorted(glob.glob(f"crates/{crate}/src/**/*.rt", recursive=True)):
        module = os.path.relpath(path, f"crates/{crate}/src")[:-3].replace("/", ".")
        yield path, "" if module in ("lib", "main") else module + "."


def closed(text, at, pair):
    """the place behind the bracket that closes the one at `at`"""
    depth = 0
    for place in range(at, len(text)):
        depth += (text[place] == pair[0]) - (text[place] == pair[1])
        if depth == 0:
            return place + 1
    raise ValueError(f"no {pair[1]} closes: {text[at:at + 60]}")


def clauses(contract, kind):
    """the clauses of a kind, each with its name"""
    contract = re.sub(r"//.*", "", contract)
    found = []
    for start in re.finditer(rf"^ +{kind}\b *(\w+)? *(?=\{{)", contract, re.M):
        end = closed(contract, start.end(), "{}")
        found.append((start[1], " ".join(contract[start.end() + 1 : end - 1].split())))
    if len(found) != len(re.findall(rf"\b{kind}\b", contract)):
        raise ValueError(f"a clause {kind} that cannot be read: {contract}")
    return found


def functions(path, indent=""):
    """the functions of a file, in its order; those of an `impl` are none"""
    for start in re.finditer(rf'^{indent}(pub (?:\(crate\) )?|pub\(crate\) )?(?:unsafe )?(?:extern "C" )?fn (\w+)(<[^>]*>)?(?=\()', read(path), re.M):
        text = start.string[start.start() : start.string.index(f"\n{indent}}}", start.start()) + len(indent) + 2]
        end = closed(text, start.end() - start.start(), "()")
        contract, _, code = text[end:].partition(f"\n{indent}{{\n")
        if not code:
            contract, _, code = text[end:].partition("{\n")
        inside = text[start.end() - start.start() + 1 : end - 1]
        parameters = [p.partition(":") for p in re.split(r",\s*(?![^\[(<]*[\])>])", inside) if p.strip()]
        parameters = [(name.replace("mut ", "").strip(), kind.strip()) for name, _, kind in parameters]
        yield Function(start[2], (start[1] or "").strip() == "pub", start[3], parameters, clauses(contract, "requires"), clauses(contract, "ensures"), code, text)


def methods(path):
    """the functions of the `impl` blocks of a file, in its order"""
    return functions(path, "    ")
