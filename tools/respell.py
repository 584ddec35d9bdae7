"""Bring the repository's own definitions and lemmas to one spelling: words in snake case.

    python3 tools/respell.py          in the repository's top, once, after the kit's own script

Functions of src/, types, modules, strings and what programs read and write keep
their names; so does every name of a library, and a word that ends in '?' keeps
its mark. Where a lemma would get the name of a definition, it gets `_lem` behind
it. It prints these, and each name that now stands beside another of its spelling.
A crate that has the name of a library of the kit gets another.
"""

import re
import sys
from pathlib import Path

# A crate that has the name of a library of the kit, and its name now.
CRATES = {"hex": "hexdigits"}

TOKEN = re.compile(r"(?P<before>[\w?']*\.)?(?P<name>[^\s(){}\[\];,.«»`\"]+)")
DEFINED = re.compile(r"^\s*(?:(?:abbrev|unfoldable|pub|record|data|module)\s+)*([^\s(){}\[\];,.«»]+)((?:\s*[({][^=]*?[)}])*)\s*:\s(.*)$")
# cases of one type on one line
SEVERAL = re.compile(r"^  ([a-z]\w*(?: [a-z]\w*)+) : ")
OWN_PATH = re.compile(r"Rattle\.(\w+)\.(?:specs|proofs)")
USE = re.compile(r"^(?:ghost use|use)\s+(\S+?)\.\{(.*)\};?\s*$")


def snake(name):
    name = name.replace("-", "_")
    return re.sub(r"(?<=[a-z0-9])[A-Z]", lambda m: "_" + m.group(0), name).lower()


def files(top, *ends):
    for p in sorted((top / "crates").rglob("*")):
        if p.suffix in ends and "out" not in p.relative_to(top).parts:
            yield p


def generated(name, rest):
    """The name of an answer, an invariant or a measure is the check's."""
    return rest.startswith(("goal." + name, "need." + name, "given." + name))


def definitions(text):
    for line in text.split("\n"):
        if line.lstrip().startswith("--"):
            continue
        m = DEFINED.match(line)
        if m:
            yield m.group(1), generated(m.group(1), m.group(3))
        several = SEVERAL.match(line)
        if several:
            yield from ((n, False) for n in several.group(1).split())


def renamings(top):
    """Each own name that is spelled otherwise, with its spelling now."""
    defined = {n for p in files(top, ".antt") for n, given in definitions(p.read_text())
               if not given and n[0].isalpha() and n[0].islower()}
    to = {n: snake(n) for n in defined if snake(n) != n}
    by_spelling = {}
    for n in defined:
        by_spelling.setdefault(snake(n), []).append(n)
    for spelled, names in by_spelling.items():
        if len(names) > 1:
            # The definition, in camel case where there is one, has the plain name.
            camel = [n for n in names if "-" not in n and n != spelled]
            plain = camel[0] if camel else spelled
            for n in names:
                if n != plain:
                    to[n] = spelled + "_lem"
                    print(f"{n} beside {plain}: {to[n]}")
    return to


def kept(text, crates):
    """The names in a file that a library or the check gives."""
    names = {n for n, given in definitions(text) if given}
    for line in text.split("\n"):
        m = USE.match(line.strip())
        own = m and OWN_PATH.match(m.group(1))
        if m and not (own and own.group(1) in crates):
            names.update(n.strip() for item in m.group(2).split(",") for n in item.split(" as "))
    return names


def turned(text, to, keep):
    def turn(m):
        before, name = m.group("before") or "", m.group("name")
        if name not in to or name in keep:
            return m.group(0)
        # A lemma is no field: behind a value's dot stands the name of a step.
        is_field = before and not before[0].isupper()
        return before + (snake(name) if is_field and to[name].endswith("_lem") and "-" in name else to[name])
    return TOKEN.sub(turn, text)


def rename_crates(top):
    for old, new in CRATES.items():
        if not (top / "crates" / old).is_dir():
            continue
        (top / "crates" / old).rename(top / "crates" / new)
        paths = re.compile(rf"(?<![\w.:])Rattle\.{old}(?=\.)|(?<![\w.:]){old}(?=::)")
        for p in files(top, ".antt", ".rt", ".edit"):
            text = p.read_text()
            new_text = paths.sub(lambda m: m.group(0)[:-len(old)] + new, text)
            if new_text != text:
                p.write_text(new_text)
        listed = top / "crates.txt"
        lines = listed.read_text().split("\n")
        listed.write_text("\n".join(line if line.startswith("#") else re.sub(rf"\b{old}\b", new, line) for line in lines))


def main():
    top = Path(".")
    crates = {p.name for p in (top / "crates").iterdir()}
    to = renamings(top)
    count = 0
    for p in files(top, ".antt", ".rt", ".edit"):
        text = p.read_text()
        keep = kept(text, crates)
        new = turned(text, to, keep)
        if new != text:
            words = {m.group("name") for m in TOKEN.finditer(text)}
            beside = sorted(n for n in words & to.keys() - keep if to[n] in words)
            for n in beside:
                print(f"{p}: {n} now has the name that {to[n]} has here too")
            p.write_text(new)
            count += 1
    rename_crates(top)
    print(f"{len(to)} names, {count} files")


if __name__ == "__main__":
    # It rewrites the repository that it stands in: a word, such as --help, only shows its text.
    if sys.argv[1:]:
        print(__doc__.strip())
    else:
        main()
