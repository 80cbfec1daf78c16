#!/usr/bin/env python3
"""Brings this repository's own names in specs/ and proofs/ to today's spelling: words in snake case, a dash only behind the function that a law is about.

usage: python3 tools/respell.py      at the top of the repository, once, right behind /opt/rattle/port/port.py

    isAtomChr -> is_atom_chr    plain-kind -> plain_kind    length-render (a law of `length`) stays    Answer·item -> answer_item

A name is the repository's own if one of its .antt files declares it. Functions of src/, strings, inputs and outputs keep their names. Where two names
fall together, the definition has the name, and the law gets `_lem` behind it. In comments only names in backticks are turned. It prints what fell
together. A second run changes nothing.
"""

import glob
import re
import sys

WORD = r"[^\s(){}.;,@\"«»\[\]\\:`]+"
DECLARED = re.compile(r"^\s*(?:(?:abbrev|pub|unfoldable) )*((?:[^\s(){}.;,@\"\[\]\\:λ→]+\s+)*[^\s(){}.;,@\"\[\]\\:λ→]+)\s*:(?:\s|$)")
OF_A_TYPE = re.compile(r"^\s*(?:(?:abbrev|pub|unfoldable) )*(?:data|record)\s+(" + WORD + ")")
GOAL = re.compile(r":\s*(?:\{[^}]*\} → )?(?:tie|goal|needs)\b|: .*\bstatement M$")
# Functions of the library that laws of this repository are about.
OF_THE_LIBRARY = set("length take drop append set head last map sum get_or length-append".split())


def read(path):
    with open(path, encoding="utf-8") as it:
        return it.read()


def code_of(line):
    return re.sub(r"(^|\s)--.*", "", line)


def declared():
    """Each name that a file declares, and whether it is a definition: declared in specs/."""
    names, goals = {}, set()
    for path in glob.glob("crates/*/specs/**/*.antt", recursive=True) + glob.glob("crates/*/proofs/**/*.antt", recursive=True):
        for line in read(path).split("\n"):
            code = code_of(line)
            it = DECLARED.match(code)
            found = it.group(1).split() if it else []
            it = OF_A_TYPE.match(code)
            found += [it.group(1)] if it else []
            for name in found:
                if GOAL.search(code):
                    goals.add(name)
                else:
                    names[name] = names.get(name, False) or "/specs/" in path
    return names, goals


def snake(name):
    name = re.sub(r"([a-z0-9′'])([A-Z])", r"\1_\2", name)
    return re.sub(r"([A-Z])", lambda it: it.group(1).lower(), name)


def respelled(name, functions):
    if re.match(r"[A-Z◌]|.*[^\w\-'·]", name) or not re.search(r"[a-z]", name):
        return name
    if re.match(r"[A-Z]", name):
        return name
    turned = snake(name)
    first, *rest = turned.split("-")
    head = name.split("-")[0]
    if rest and (head in functions or head in OF_THE_LIBRARY):
        return first + "-" + "_".join(rest)
    return "_".join([first, *rest])


def table():
    names, goals = declared()
    functions = {n for n, spec in names.items() if spec and "-" not in n and (re.search(r"[A-Z]", n) or "_" in n)}
    # Words that stand alone somewhere, and are no part of a path: a variable may have the name too.
    alone = set()
    for path in glob.glob("crates/**/*.antt", recursive=True):
        for line in read(path).split("\n"):
            if not re.match(r"\s*(?:pub )?use ", line):
                alone |= set(re.findall(r"(?<![^\s({,;])" + WORD, code_of(line)))
    wanted = {}
    for name in names:
        if name not in goals:
            wanted.setdefault(respelled(name, functions), []).append(name)
    turned = {}
    for new, olds in sorted(wanted.items()):
        # The definition first, then a name that is spelled so already; the others give way.
        olds.sort(key=lambda n: (not names[n], n != new, "-" in n, n))
        free = new not in alone or new in olds
        for name in olds:
            if not free:
                print(f"falls together: {name} and {olds[0] if olds[0] != name else new + ', which stands somewhere'}")
            it = new if free else new + "_lem"
            if not free and (it in wanted or it in turned.values() or it in alone):
                sys.exit(f"respell: {name} has no free name")
            free = False
            if it != name:
                turned[name] = it
    return turned


# Names that a `ghost use` gives, with a type's name before a dot.
DOTTED = re.compile(r"\b([A-Za-z]+)·([a-z][a-z_-]*)\b")
undotted = lambda text: DOTTED.sub(lambda it: snake(it.group(1)[0].lower() + it.group(1)[1:]) + "_" + it.group(2).replace("-", "_"), text)


def respell_line(line, turned, comment):
    cut = re.search(r"(^|\s)" + comment + r"(\s|$)", line)
    at = cut.start() if cut else len(line)
    code, said = line[:at], line[at:]
    one = lambda it: turned.get(it.group(0), it.group(0))
    parts = re.split(r"(\"(?:[^\"\\]|\\.)*\")", code)
    code = "".join(p if p.startswith('"') else undotted(re.sub(WORD, one, p)) for p in parts)
    said = re.sub(r"`[^`\n]*`", lambda it: "`" + re.sub(WORD, one, it.group(0)[1:-1]) + "`", said)
    return code + said


def main():
    turned = table()
    # In src/ only clauses speak of definitions, and functions keep their names.
    of_code = {k: v for k, v in turned.items() if "-" not in k and re.search(r"[A-Z]", k)}
    n = 0
    for path in sorted(glob.glob("crates/**/*.antt", recursive=True) + glob.glob("crates/*/src/**/*.rt", recursive=True)):
        if "/out/" in path:
            continue
        old = read(path)
        mapping, comment = (turned, "--") if path.endswith(".antt") else (of_code, "//")
        new = "\n".join(respell_line(line, mapping, comment) for line in old.split("\n"))
        if new != old:
            n += 1
            with open(path, "w", encoding="utf-8") as it:
                it.write(new)
    print(f"respell: {len(turned)} names, {n} files")


if __name__ == "__main__":
    main()
