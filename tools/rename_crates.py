#!/usr/bin/env python3
"""tools/rename_crates.py: gives the crates `core` and `hex` the names `r8_core` and `hexadecimal`, since the kit has libraries of those names,
and the definition `result` of `effects` the name `arithmeticResult`, since a clause calls so what a function returns.

Run once, at the top, before the script that turns the older spelling: that one takes paths of a crate named `core` for the kit's. It turns
crates.txt, the folders, `use` lines and paths of code, specifications, proofs and edits. Pages are turned by hand.
"""
import os, re, subprocess, sys

NAMES = {"core": "r8_core", "hex": "hexadecimal"}
PATH = re.compile(r"Rattle·(core|hex)(?=[·. ])")  # a module's path in antt
CODE = re.compile(r"(?<![\w:.])(core|hex)(?=::)")  # a path in code, and a function's name in a comment
BARE = re.compile(r"(?<![\w·.:-])(core|hex)(?=\.(specs|proofs)\b)")  # a whole path in `theorems`
SPAN = re.compile(r"`(core|hex)`")  # a crate's name in a comment
RESULT = re.compile(r"(?<![\w.-])result(?= o x =| o | outcome effect| \((?:binary|constant|unary)Result| \(Rattle|, loaded| : Outcome)")
FILE = re.compile(r"^((?:file: crates/|refused-by: ))(core|hex)\b", re.M)


def turned(text, path):
    text = PATH.sub(lambda m: "Rattle·" + NAMES[m[1]], text)
    text = CODE.sub(lambda m: NAMES[m[1]], text)
    text = BARE.sub(lambda m: NAMES[m[1]], text)
    text = SPAN.sub(lambda m: f"`{NAMES[m[1]]}`", text)
    if path.startswith("crates/effects/"):
        text = RESULT.sub("arithmeticResult", text)
    if path.endswith(".edit"):
        text = FILE.sub(lambda m: m[1] + NAMES[m[2]], text)
    return text


def main():
    os.chdir(os.path.dirname(os.path.dirname(os.path.realpath(__file__))))
    listed = open("crates.txt", encoding="utf-8").read()
    if not re.search(r"^core:", listed, re.M):
        sys.exit("there is no crate `core`: nothing to do")
    open("crates.txt", "w", encoding="utf-8").write(
        "\n".join(line if line.startswith("#") else re.sub(r"\b(core|hex)\b", lambda m: NAMES[m[1]], line) for line in listed.split("\n")))
    for top in ("crates", "mutants"):
        for folder, _, files in os.walk(top):
            for file in files:
                path = f"{folder}/{file}"
                if path.endswith((".rt", ".antt", ".edit")):
                    before = open(path, encoding="utf-8").read()
                    after = turned(before, path)
                    if after != before:
                        open(path, "w", encoding="utf-8").write(after)
    for old, new in NAMES.items():
        subprocess.run(["git", "mv", f"crates/{old}", f"crates/{new}"], check=True)


if __name__ == "__main__":
    main()
