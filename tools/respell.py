#!/usr/bin/env python3
"""Spells the repository's own definitions and lemmas as today's library spells its: words in snake case, no capital within, no dash.

usage: python3 tools/respell.py    once, at the top of the repository, after the kit's port.py

What turns: the names that specs/*.antt and proofs/*.antt declare (definitions, lemmas, fields of records, functions of a `where`),
in specs, proofs and contracts. Functions of src/, modules, types, constructors and the names that Rattle makes stay, and so does a
name that a dash joins to an operator. Where two names would fall together, the lemma gets `_lem`.
"""
import os
import re

# Spelled by rule it would be the name of a crate.
FALLS = {"closingLine": "printed_line"}
NAME = r"[^\s(){}.;,@\"«»\[\]`|]+"
DECLARED = re.compile(r"^[ \t]*(?:(?:abbrev|unfoldable|pub) +)*(" + NAME + r")(?: \{[^{}\n]*\})* :(?= |$)", re.M)
USE = re.compile(r"\buse ([^\s;{]+?)\.?\{([^}]*)\}")


def snake(name):
    name = re.sub(r"(?<=[a-z0-9])[A-Z]", lambda m: "_" + m[0].lower(), name)
    return name.replace("-", "_").lower()


def texts(top, endings):
    for folder, dirs, files in os.walk(top):
        dirs[:] = sorted(d for d in dirs if d != "out")
        for f in sorted(files):
            if f.endswith(endings):
                yield os.path.join(folder, f)


def read(path):
    with open(path, encoding="utf-8") as f:
        return f.read()


def crates():
    return sorted(c for c in os.listdir("crates") if os.path.isdir(os.path.join("crates", c, "src")))


def is_made(path):
    """A function's proof, whose declarations have the names of goals."""
    return path.endswith(("/Proof.antt", "/Answers.antt", "/Invariants.antt"))


def bare(code):
    return re.sub(r"--[^\n]*", "", code)


def table_of(own):
    """The new spelling of each name that turns. Of two that fall together the one with a capital within is a definition and takes the name."""
    turning = {n for n in own if not re.search(r"[%*+/]", n)}
    spelled = {n: FALLS.get(n, snake(n)) for n in turning}
    taken = {}
    for n in sorted(turning, key=lambda n: (not re.search(r"[a-z0-9][A-Z]", n), "-" in n, n)):
        while spelled[n] in taken:
            spelled[n] += "_lem"
        taken[spelled[n]] = n
    return {n: new for n, new in spelled.items() if new != n}


def bare_fields():
    """A field of a record stands in no other name's place: the spelling without `_lem` is its own."""
    record = re.compile(r"^( *)(?:pub )?record \S+.* where$")
    declared = re.compile(r"^ *(?:pub +)?(" + NAME + r"_lem) :(?= |$)")
    fields, lines_of, inside = set(), {}, {}
    for path in texts("crates", ".antt"):
        lines_of[path] = read(path).split("\n")
        inside[path] = set()
        within = None
        for i, line in enumerate(lines_of[path]):
            m = record.match(line)
            if m:
                within = len(m[1])
            elif within is not None and line.strip() and len(line) - len(line.lstrip()) <= within:
                within = None
            d = declared.match(line)
            if d and within is not None and not is_made(path):
                fields.add(d[1])
                inside[path].add(i)
    # projections; labels of a record that is made; not the equations of a lemma, whose signature stands above
    projection = re.compile(r"(?<=\.)(" + NAME + r"_lem)(?![\w'-])")
    label = re.compile(r"((?:^ +|[{;] ))(" + NAME + r"_lem)(?= = )")
    for path, lines in lines_of.items():
        lemma = None
        for i, line in enumerate(lines):
            if lemma and line.strip() and len(line) - len(line.lstrip()) < lemma[1]:
                lemma = None
            d = declared.match(line)
            if d:
                if i in inside[path]:
                    lines[i] = line = line.replace(d[1], d[1][:-4], 1)
                lemma = None if i in inside[path] else (d[1], len(line) - len(line.lstrip()))

            def plain(m):
                equation = lemma and m[2] == lemma[0] and not m[1].strip() and len(m[1]) == lemma[1]
                return m[0] if m[2] not in fields or equation else m[1] + m[2][:-4]

            line = projection.sub(lambda m: m[1][:-4] if m[1] in fields else m[1], line)
            lines[i] = label.sub(plain, line)
        with open(path, "w", encoding="utf-8") as f:
            f.write("\n".join(lines))


def main():
    own, by_file = set(), {}
    for path in texts("crates", ".antt"):
        code = bare(read(path))
        names = {n for n in DECLARED.findall(code) if n[0].islower() or "-" in n}
        by_file[path] = names
        if not is_made(path):
            own |= names
    table = table_of(own)
    of_crates = {"Rattle." + c for c in crates()}

    def visible(path, code):
        """The own names that this file declares or imports; a field is one everywhere behind a dot."""
        here = set(by_file.get(path, ())) if not is_made(path) else set()
        others = set()
        for module, items in USE.findall(code):
            named = {i.split(" as ")[0].strip() for i in items.replace("\n", " ").split(",")}
            if ".".join(module.split(".")[:2]) in of_crates:
                here |= named
            else:
                others |= named
        return here - others, others

    word = re.compile(r"(?<![^\s(){}.;,@\"«»\[\]`|])(" + NAME + r")(?![^\s(){}.;,@\"«»\[\]`|])")
    def turned(path, code):
        here, others = visible(path, code)

        def one(m):
            n = m[1]
            if n not in table:
                return n
            # a word of a comment, unless it is marked as code
            line = code[code.rfind("\n", 0, m.start()) + 1 : m.start()]
            if "--" in line and line.count("`") % 2 == 0:
                return n
            behind = m.start() > 0 and code[m.start() - 1] == "."
            # A label of a record that is made, and a field that is read
            if n in here or (n not in others and (behind or n in fields)):
                return table[n]
            return n

        return word.sub(one, code)

    # the fields of the repository's records: declared by indented lines of specs/ and proofs/
    fields = set()
    for path, names in by_file.items():
        if not is_made(path):
            for n in re.findall(r"(?m)^[ \t]+(?:pub +)?(" + NAME + r") :(?= |$)", bare(read(path))):
                fields.add(n)
    fields &= set(table)

    for path in list(texts("crates", (".antt", ".rt"))):
        code = read(path)
        if path.endswith(".antt"):
            new = turned(path, code)
        else:
            # in clauses and imports; a name with a capital within is none of the code's
            new = word.sub(lambda m: table[m[1]] if m[1] in table and re.search(r"[a-z0-9][A-Z]", m[1]) else m[1], code)
        if new != code:
            with open(path, "w", encoding="utf-8") as f:
                f.write(new)
    bare_fields()


if __name__ == "__main__":
    main()
