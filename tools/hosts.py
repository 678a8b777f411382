#!/usr/bin/env python3
"""hosts.py [--check], at the top of the repository: the table of docs/HOSTS.md, a row for each call that hosts/bench.h declares: in C, in Rust, in Python. It is written below the page's line
'<!-- table -->', or, with --check, compared.

The status is 1, and what is wrong is printed, where a call has no line in hosts/rust/src/calls.rs, no function in lib.rs or in hosts/python/mass_bench.py that makes it, or no row in one of
tests/hosts, which make it for the count; where a refusal of README.md has other words in a host; where `unsafe` stands outside calls.rs; and where the module's soname is not the crate's version."""
import pathlib
import re
import sys

MARK = "<!-- table -->\n"
PAGE = pathlib.Path("docs/HOSTS.md")


def read(path):
    return pathlib.Path(path).read_text(encoding="utf-8")


def split(arguments):
    """the arguments of a signature, cut at the commas that stand in no bracket"""
    flat = re.sub(r"\[[^\[\]]*\]", "", re.sub(r"\[[^\[\]]*\]", "", " ".join(arguments.split())))
    return [argument.strip() for argument in flat.split(",") if argument.strip()]


def declared():
    """the calls of the header: name -> signature; the length of a buffer goes without saying"""
    found = {}
    for name, arguments in re.findall(r"^uint64_t (bench_\w+)\((.*?)\);", read("hosts/bench.h"), re.M | re.S):
        names = [re.findall(r"\w+", argument)[-1] for argument in split(arguments)]
        found[name] = f"{name}({', '.join(n for n in names if not n.endswith('_length'))})"
    return found


def rust():
    """the functions of the crate's root: the call that each makes -> signature, and the first sentence of its text"""
    found = {}
    function = r"((?:^///[^\n]*\n)+)^pub fn (\w+)\((.*?)\) -> Result<(.*?), Refusal> \{\n(.*?)^\}"
    for text, name, arguments, answer, body in re.findall(function, read("hosts/rust/src/lib.rs"), re.M | re.S):
        first = re.match(r"(.*?)\.(\s|$)", " ".join(line[3:].strip() for line in text.splitlines()).replace("[`", "`").replace("`]", "`"))[1]
        names = ", ".join(argument.split(":")[0] for argument in split(arguments))
        found.update({f"bench_{call}": (f"{name}({names}) -> {answer}", first) for call in re.findall(r"\bcalls::(\w+)", body)})
    return found


def python():
    """the functions of the module: the call that each makes, by its own name or in its text -> signature"""
    found = {}
    for name, arguments, answer, body in re.findall(r"^def ([a-z]\w*)\((.*?)\) -> (.*?):\n(.*?)(?=^\S|\Z)", read("hosts/python/mass_bench.py"), re.M | re.S):
        names = ", ".join(argument.split(":")[0] for argument in split(arguments))
        found.update({call: f"{name}({names}) -> {answer}" for call in re.findall(r'"(bench_\w+)"', body) or [f"bench_{name}"]})
    return found


def refusals():
    """the words of each refusal that differ: README.md says them first, and may say more"""
    table = read("README.md").partition("| number | given when |")[2].partition("\n\n")[0]
    words = dict(re.findall(r"^\| (\d+) \| (.*?) \| .* \|$", table, re.M))
    hosts = {
        "hosts/rust/src/lib.rs": dict(re.findall(r'^    \w+ = (\d+) "(.*)",$', read("hosts/rust/src/lib.rs"), re.M)),
        "hosts/python/mass_bench.py": dict(re.findall(r'^    (\d+): "(.*)",$', read("hosts/python/mass_bench.py"), re.M)),
    }
    for file, said in hosts.items():
        for number in sorted({*words, *said}, key=int):
            if number not in said or not words.get(number, "").startswith(said[number]):
                yield f"{file}: refusal {number} is '{said.get(number)}', in README.md '{words.get(number)}'"


def unsafe():
    for path in sorted(pathlib.Path("hosts/rust").rglob("*.rs")):
        code = re.sub(r"//.*", "", read(path))
        if "target" not in path.parts and path.name != "calls.rs" and re.search(r"\bunsafe\b", code) or code.count("allow(unsafe_code)") > (path.name == "lib.rs"):
            yield f"{path}: unsafe stands in calls.rs alone"


def main():
    wrong = [*refusals(), *unsafe()]
    version = re.search(r'^version = "(\d+)', read("hosts/rust/Cargo.toml"), re.M)[1]
    if f'"libmass_bench.so.{version}"' not in read("hosts/python/mass_bench.py"):
        wrong.append(f"hosts/python/mass_bench.py: its soname is not of version {version}")
    calls, in_rust, in_python = declared(), rust(), python()
    lent = set(re.findall(r"^    \w+ = (bench_\w+)\(", read("hosts/rust/src/calls.rs"), re.M))
    answers = {path: read(path) for path in (f"tests/hosts/answers.{ending}" for ending in ("c", "rs", "py"))}
    rows = ["| call | in C | in Rust | in Python |", "|---|---|---|---|"]
    for name, signature in calls.items():
        makers = {"hosts/rust/src/calls.rs": lent, "hosts/rust/src/lib.rs": in_rust, "hosts/python/mass_bench.py": in_python}
        wrong += [f"{file} does not make {name}" for file, made in makers.items() if name not in made]
        wrong += [f"{path} has no row for {name}" for path, text in answers.items() if not re.search(rf"\b{name}\b", text)]
        of_rust, first = in_rust.get(name, ("", ""))
        rows.append(f"| {first} | `{signature}` | `{of_rust}` | `{in_python.get(name)}` |")
    made_elsewhere = lent | set(re.findall(r'"(bench_\w+)"', read("hosts/python/mass_bench.py")))
    wrong += [f"{name} is made in a host, but hosts/bench.h does not declare it" for name in sorted(made_elsewhere - set(calls))]
    head, _, stands = read(PAGE).partition(MARK)
    made = "\n".join(["", *rows, ""])
    if sys.argv[1:] != ["--check"]:
        PAGE.write_text(head + MARK + made, encoding="utf-8")
    elif stands != made:
        wrong.append(f"{PAGE} is not what tools/hosts.py writes")
    for line in wrong:
        print(line)
    return 1 if wrong else 0


sys.exit(main())
