#!/usr/bin/env python3
"""Spells the definitions and lemmas of this repository in snake case: `isEmpty` and `is-empty` become `is_empty`. It turns whole words, and goes by spelling.

usage: tools/respell.py [--check]   at the top of the repository

A name that specs/ or proofs/ declares turns; types, modules, what a function's own proof folder declares, and what a file imports from a library stay.
In a .rt file a name turns in every place, since no item of Rust is spelled in lower camel case or with a dash. The lines of must-fail edits turn as well.
Where a lemma would fall together with the definition that it speaks of, the lemma gets `_lem`. --check lists the names that fall together, and the new ones that a file has already.
"""
import collections
import glob
import os
import re
import sys

NAME = r"[^\s(){}.;,@\"«»]+"
WORD = re.compile(NAME)
MODIFIERS = r"(?:(?:abbrev|unfoldable|pub|mutual) )*"
DECLARED = re.compile(r"(?m)^ *" + MODIFIERS + r"(?!module\b|use\b|let\b)(" + NAME + r")(?: [({][^\n]*[)}])* :(?= |$)")
RULESET = re.compile(r"(?m)^ *(?:pub )?ruleset (" + NAME + r")")
IMPORT = re.compile(r"\buse ([^\s;{]+)\.\{([^}]*)\}")

# lemmas that are in snake case already, each spelled like a definition that turns
LEMMAS = "after_one at_rest branch_by goes_on laid_word left_by nth_in one_more part_in read_done".split()


def in_snake_case(name):
    words = re.sub(r"(?<=[a-z0-9₀-₉])[A-Z]", lambda m: "_" + m[0].lower(), name)
    return re.sub(r"(?<=.)-", "_", words)


def own_files():
    specs = glob.glob("crates/*/specs/**/*.antt", recursive=True)
    lemmas = glob.glob("crates/*/proofs/*.antt")
    return sorted(specs + lemmas)


def all_files():
    inner = glob.glob("crates/*/proofs/*/**/*.antt", recursive=True)
    code = glob.glob("crates/*/src/*.rt")
    edits = glob.glob("crates/*/must-fail/*.edit")
    return sorted(set(own_files() + inner + code + edits))


def read(path):
    with open(path, encoding="utf-8") as file:
        return file.read()


def declared():
    """Each declared name, with the files that declare it."""
    names = collections.defaultdict(set)
    for path in own_files():
        text = re.sub(r"(?<!\S)--[^\n]*", "", read(path))
        for pattern in (DECLARED, RULESET):
            for m in pattern.finditer(text):
                names[m[1]].add(path)
        for m in IMPORT.finditer(text):
            for item in m[2].split(","):
                if " as " in item:
                    names[item.split(" as ")[1].strip()].add(path)
    return names


def spellings(names):
    """Old name to new. A definition takes the plain spelling before a lemma does."""
    table = {}
    taken = set(names) - set(LEMMAS)
    olds = [name for name in names if is_old(name)]
    for name in sorted(olds, key=lambda name: ("-" in name, name)):
        new = in_snake_case(name)
        table[name] = new + "_lem" if new in taken else new
        taken.add(new)
    return table


def is_old(name):
    return not name[0].isupper() and name[0] not in "-_" and in_snake_case(name) != name and name[0].isalpha()


def foreign(text):
    """What a file imports from a library."""
    names = set()
    for m in IMPORT.finditer(text):
        if m[1].startswith("Rattle.") and os.path.isdir("crates/" + m[1].split(".")[1]):
            continue
        for item in m[2].split(","):
            names.add(item.split(" as ")[-1].strip())
    return names


def brings(text, name, paths):
    """A file imports a lemma from one of the files that declare it."""
    for m in IMPORT.finditer(text):
        steps = m[1].split(".")
        if name in [item.strip() for item in m[2].split(",")] and any(
            path == f"crates/{steps[1]}/proofs/{steps[-1]}.antt" for path in paths if len(steps) > 2
        ):
            return True
    return False


def main():
    checking = "--check" in sys.argv
    names = declared()
    table = spellings(names)
    meets = collections.defaultdict(list)
    for old, new in table.items():
        meets[new].append(old)
    for new, olds in sorted(meets.items()):
        if len(olds) > 1 or new in names and new not in LEMMAS:
            print("together:", new, olds)
    lemmas = {name: names[name] for name in LEMMAS}
    for path in all_files():
        text = read(path)
        words = set(WORD.findall(text))
        elsewhere = foreign(text)
        for old, new in sorted(table.items()):
            if old in words and new in words and old not in elsewhere:
                print("meets:", path, old, new)
        if checking:
            continue

        here = {name for name, paths in lemmas.items() if path in paths or brings(text, name, paths)}

        def turned(m):
            word = m[0]
            if word in elsewhere:
                return word
            if word in here and (not m.start() or text[m.start() - 1] != "."):
                return word + "_lem"
            if m.start() and text[m.start() - 1] == "." and re.search(r"\b(?:tie|goal)\.$", text[: m.start()]):
                return word
            return table.get(word, word)

        new_text = WORD.sub(turned, text)
        if new_text != text:
            with open(path, "w", encoding="utf-8") as file:
                file.write(new_text)


if __name__ == "__main__":
    main()
