#!/usr/bin/env python3
"""determined.py [--check] [CRATE ..]: crates/CRATE/proofs/Determined.antt, from the sources: for each function that another crate can name, the theorem that any two
outcomes that keep its promise are identical, the answer and each lent buffer. Run it at the top of the repository; it writes the files, or, with --check, says which
differ from what it would write. The theorems are about the promise as the check reads it from the source, so this file cannot make a promise stronger than it is.
The functions over a reader, whose promise the check does not write, have theirs in proofs/ReaderDetermined.antt."""
import os
import re
import sys

import sources

HEAD = """-- Any two outcomes that keep the promise of a public function are identical: the answer and what each lent buffer holds at the end. `Post` is the
-- contract itself, as the check reads it from the source: where a clause of it is dropped or weakened, the theorem fails. Assumes nothing.
-- (tools/determined.py writes this file.)
"""


def theorem(crate, module, function):
    """the imports of a function's theorem, and the theorem"""
    name, short = function.name, function.name.replace("_", "-")
    path = f"{module}{name}"
    uses = [
        f"use Rattle.{crate}.specs.contracts.{path} as {short}",
        f"use Rattle.{crate}.proofs.{path}.Kinds as {short}-kinds",
        f"use Rattle.{crate}.proofs.{path}.Reads as {short}-reads",
    ]
    count = sum(kind.count("&") for _, kind in function.parameters)
    at = {parameter: ".1" * i + ".0" for i, (parameter, _) in enumerate(function.parameters)}
    told, shown, words = [], [], []
    for i, (_, clause) in enumerate(function.ensures):
        part = "" if len(function.ensures) == 1 else ".1" * i + (".0" if i + 1 < len(function.ensures) else "")
        if found := re.match(r"«?(\w+)»?\.new ≡ ", clause):
            told.append(f"(s{at[found[1]]}.now ≡ t{at[found[1]]}.now)")
            words.append(f"`{found[1]}`")
            shown.append(f"p{part} ∙ sym e{part}")
        elif clause.startswith("result ≡ "):
            told.append("(r ≡ q)")
            words.append("the answer")
            shown.append(f"p{part} ∙ sym e{part}")
        elif (found := re.match(r"Wrote (\w+)\.old ", clause)) and len(function.ensures) == 1:
            told += [f"(s{at[found[1]]}.now ≡ t{at[found[1]]}.now)", "(r ≡ q)"]
            words += [f"`{found[1]}`", "the place"]
            shown.append("wrote_determines p e")
        else:
            sys.exit(f"{crate}::{name}: no theorem is known for the clause {clause}")
    if not function.ensures:
        sys.exit(f"{crate}::{name}: it promises nothing")
    said = told[0][1:-1] if len(told) == 1 else "\n      × ".join(told)
    proof = shown[0] if len(shown) == 1 else "(" + ", ".join(shown) + ")"
    if len(proof) > 120:
        proof = "(\n" + "".join(f"    {one},\n" for one in shown) + "  )"
    text = f"""-- `{name}`: {", ".join(words)}
module _ (κs : Lfts {count}) (a : ArgsD {short}.signature κs) (r q : ResD {short}.signature κs)
    (s t : AtExit (ended_of {count} {short}-kinds.ps {short}-kinds.r) κs) where
  pub {name}_determined : {short}-reads.Post κs a r s → {short}-reads.Post κs a q t →
      {said}
  {name}_determined p e = {proof}
"""
    return uses, text


def made(crate):
    """the file of a crate, or none where no function of it can be named by another"""
    uses, texts = [], []
    for path, module in sources.files(crate):
        for function in sources.functions(path):
            if function.public and not function.generic:
                imports, text = theorem(crate, module, function)
                uses += imports
                texts.append(text)
    if not texts:
        return None
    body = "\n".join(texts)
    path = [name for name, mark in (("◌≡◌", "≡"), ("sym", "sym"), ("◌∙◌", "∙")) if re.search(rf"(?<!\w){mark}(?!\w)", body)]
    head = [
        "use mathlib.Core.Path.{" + ", ".join(path) + "}",
        "use contract.Lifetimes.{Lfts}",
        "use borrow.Fn.World.{ArgsD, ResD}",
        "use borrow.Fn.Kinds.{ended_of}",
        "use denote.Triple.Clauses.{AtExit}",
    ]
    if "wrote_determines" in body:
        head.append("use Rattle.algebra.proofs.Writing.{wrote_determines}")
    return HEAD + "\n".join(head + uses) + "\n\n" + body


def main():
    words = [word for word in sys.argv[1:] if word != "--check"]
    differ = []
    for crate in words or sources.crates():
        if not os.path.exists(f"crates/{crate}/src/lib.rt"):
            continue
        text, path = made(crate), f"crates/{crate}/proofs/Determined.antt"
        stands = sources.read(path) if os.path.exists(path) else None
        if text == stands:
            continue
        differ.append(path)
        if "--check" in sys.argv:
            continue
        if text is None:
            os.remove(path)
        else:
            with open(path, "w", encoding="utf-8") as file:
                file.write(text)
    if "--check" in sys.argv:
        for path in differ:
            print(f"{path} is not what tools/determined.py writes")
        return 1 if differ else 0
    return 0


sys.exit(main())
