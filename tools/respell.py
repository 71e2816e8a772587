#!/usr/bin/env python3
"""tools/respell.py: gives the project's own definitions and lemmas the spelling of today's library: words in snake case, facts as types.

Run once, at the top, after the script that turns the older spelling, which turns only the names that the library has too. A name that is
declared in specs/ or proofs/ turns wherever it stands in antt, in clauses, and in the code spans of comments and pages: `wordAt` to `word_at`,
`memory-exactly` to `memory_exactly`, a definition that is a fact to upper camel case. A lemma whose new name is that of a definition gets
`_lem`. What is declared in a function's own Proof.antt keeps its name, which the checker gave. Names of src/ stay.
"""
import collections, glob, os, re

WORD = re.compile(r"[^\s(){}.;,@\"«»`]+")
HEAD = re.compile(r"^ *(?:(?:abbrev|unfoldable|pub) )*(?:(?:record|data) ([^\s:(){}]+)|([^\s:(){}]+)(?= :\s))(.*)$", re.M)
CAMEL = re.compile(r"[a-z][a-zA-Z0-9'-]*[A-Z][a-zA-Z0-9'-]*")
SPAN = re.compile(r"`[^`\n]+`")
FACTS = {"held": "Held", "plainRow": "PlainRow", "same": "Same"}  # facts that began with a small letter, with the crates below
FACTS_OF = {"held": "r8", "plainRow": "reference", "same": "reference"}
BOUND = {"dueRight", "oneDue", "asRun", "readAs", "listedCall", "callAnswer"}  # parameters and constructors that share a line
TAKEN = {"opened_after": "script", "goes_on": "script", "is_digit": "hexadecimal", "row-of": "trace"}  # lemmas of a definition's new name


def read(path):
    with open(path, encoding="utf-8") as file:
        return file.read()


def snake(name):
    return re.sub(r"(?<=[a-z0-9'])([A-Z]+)", lambda m: "_" + m[1].lower(), name).replace("-", "_") if CAMEL.fullmatch(name) else name.replace("-", "_")


def antt():
    return sorted(p for part in ("specs", "proofs") for p in glob.glob(f"crates/*/{part}/**/*.antt", recursive=True))


def tables():
    """Of each crate, the names that turn there; and those that turn everywhere."""
    declared = collections.defaultdict(set)
    for path in antt():
        for m in HEAD.finditer(read(path)):
            if m[1] or m[2]:
                declared[m[1] or m[2]].add(path)
    camel = {name: snake(name) for name in {*declared, *BOUND} if CAMEL.fullmatch(name) and name not in FACTS}
    taken = {*camel.values(), *(name for name in declared if "-" not in name)}
    names, own = dict(camel), collections.defaultdict(dict)
    for name in declared:
        if "-" in name and name not in names and any(not path.endswith("/Proof.antt") for path in declared[name]):
            names[name] = snake(name) + ("_lem" if snake(name) in taken else "")
    for name, crate in FACTS_OF.items():
        own[crate][name] = FACTS[name]
    for name, crate in TAKEN.items():
        own[crate][name] = name.replace("-", "_") + "_lem"
    return names, own


def main():
    os.chdir(os.path.dirname(os.path.dirname(os.path.realpath(__file__))))
    names, own = tables()
    for path in [*antt(), *sorted(glob.glob("crates/*/src/**/*.rt", recursive=True))]:
        here = {**names, **own[path.split("/")[1]]}
        def words(text):
            return WORD.sub(lambda m: here.get(m[0], m[0]), text)
        code = {name: new for name, new in here.items() if CAMEL.fullmatch(name)} if path.endswith(".rt") else here
        mark = "//" if path.endswith(".rt") else "--"
        made = []
        for line in read(path).split("\n"):
            at = re.search(rf"(?<!\S){mark}", line)
            at = at.start() if at else len(line)
            made.append(WORD.sub(lambda m: code.get(m[0], m[0]), line[:at]) + SPAN.sub(lambda m: words(m[0]), line[at:]))
        text = "\n".join(made)
        if text != read(path):
            with open(path, "w", encoding="utf-8") as file:
                file.write(text)
    final = {m[1] or m[2] for path in antt() for m in HEAD.finditer(read(path))}
    for path in ["README.md", *sorted(glob.glob("docs/**/*.md", recursive=True))]:
        def page(m):
            word = m[0]
            for new in (names.get(word), snake(word), snake(word) + "_lem"):
                if new in final and word not in final:
                    return new
            return word
        text = SPAN.sub(lambda m: WORD.sub(page, m[0]), read(path))
        with open(path, "w", encoding="utf-8") as file:
            file.write(text)
    print(len(names), "names")


if __name__ == "__main__":
    main()
