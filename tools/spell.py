#!/usr/bin/env python3
"""Turns the repository's own names to the spelling of today's Rattle, at the top of the repository, after port.py.

A definition or a lemma that a file of specs/ or of proofs/ (not of a function's own folder) names in camel case, or with words
joined by dashes, gets its words joined by '_'. A function of src/ keeps its name, so does a type, a module and what Rattle makes.
Where the new name stands already, for a definition of this repository or a word that a file takes from a library, the lemma's
name gets '_lem' at its end. With --list it prints each old name and its new one and writes nothing.
"""
import glob
import re
import sys

HEAD = re.compile(r"^\s*(?:pub |abbrev |unfoldable |ruleset |record |data )*([^\s:(){}\[\];,.@\"]+)\s*:(?!=)")
TOKEN = re.compile(r"(?<![^\s(){}\[\];,.@\"`])[^\s(){}\[\];,.@\"`]+")
CODE = re.compile(r"[A-Za-z_][\w'-]*")


def texts(pattern):
    return sorted(glob.glob(pattern, recursive=True))


def snake(name):
    return re.sub(r"([a-z0-9])([A-Z])", r"\1_\2", name).replace("-", "_").lower()


def old_names(files):
    for file in files:
        for line in open(file, encoding="utf-8"):
            head = HEAD.match(line)
            if head and re.fullmatch(r"[a-z][A-Za-z0-9'_-]*", head[1]):
                yield head[1]


def imported(files):
    """Each word that a file takes from a library, and each of its own file's heads."""
    for file in files:
        for line in open(file, encoding="utf-8"):
            use = re.match(r"\s*(?:ghost )?(?:pub )?use [^{]*\{(.*)\}", line)
            if use and "Rattle.std." in line:
                yield from (word.strip() for word in use[1].split(","))


def table():
    own = texts("crates/*/specs/**/*.antt") + texts("crates/*/proofs/*.antt")
    everything = own + texts("crates/*/proofs/*/**/*.antt")
    names = set(old_names(own))
    taken = set(old_names(everything)) | set(imported(everything + texts("crates/*/src/**/*.rt")))
    turned = {}
    for name in sorted(names, key=lambda name: ("-" in name, name)):
        if re.search(r"[a-z0-9][A-Z]|-", name):
            new = snake(name)
            if "-" not in name and new in names and new not in turned.values():
                turned[new] = new + "_lem"  # a lemma or a field that has the definition's name
                taken -= {new}
            while new in taken or new in turned.values():
                new += "_lem"
            turned[name] = new
    return turned


def main():
    turned = table()
    if "--list" in sys.argv:
        for old, new in turned.items():
            print(old, new)
        return
    places = 0

    def swap(match):
        nonlocal places
        before = match.string[max(0, match.start() - 10) : match.start()]
        own = file.endswith(".antt") and not (file.count("/") > 3 and "/proofs/" in file)
        camel = re.search(r"[a-z0-9][A-Z]", match[0])
        made = "-" in match[0] and before.endswith(".") and not own
        plain = not camel and "-" not in match[0] and (not own or before.endswith(("proofs.", "contracts.")))
        if match[0] not in turned or made or plain:
            return match[0]
        places += 1
        return turned[match[0]]

    for pattern, word in (
        ("crates/*/specs/**/*.antt", TOKEN),
        ("crates/*/proofs/**/*.antt", TOKEN),
        ("crates/*/src/**/*.rt", CODE),
        ("crates/*/must-fail/**/*.edit", CODE),
    ):
        for file in texts(pattern):
            text = open(file, encoding="utf-8").read()
            new = word.sub(swap, text)
            if new != text:
                open(file, "w", encoding="utf-8").write(new)
    print(f"{len(turned)} names, {places} places")


main()
