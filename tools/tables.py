#!/usr/bin/env python3
"""Prints the tables of the crates grammar, shape and forms: as constants of the code, and as lists of the proofs.

What is described here is what the rules say in Grammar.antt, Shape.antt and Forms.antt. The proofs compare every entry
with the rules, so that a wrong number in a table is refused.
"""

MODIFIERS, ACTIONS, UNITS, TEXTS = [0x08, 0x88], [0x09, 0x89], [0x0A, 0x8A], [0x0E, 0x8E]
VALUES = [0x0D] + TEXTS
ACTION_CODES = [0x40, 0x46, 0xC6, 0x47, 0xC7, 0x4A, 0xCA, 0x4B, 0xCB]
OTHER_CODES = [0x41, 0x42, 0x43, 0xC3, 0x44, 0x45, 0xC5, 0x48, 0x49]

MAY, MUST, SOLE, ANY, SOME, PAIRED = range(6)
KINDS = ("unjudged page unit modifier action system setting back branch case reference exit length command whole").split()

# the parts of each kind of container: tags, and how often
GRAMMAR = {
    "page": [([0x02], MUST), ([0x03], MAY), ([0x04], MAY), ([0x05], MAY), ([0x06], MAY), ([0x07], MAY), (MODIFIERS, ANY), (UNITS, SOME)],
    "unit": [([0x0B], MAY), (MODIFIERS, ANY), (ACTION_CODES + OTHER_CODES, ANY)],
    "modifier": [(TEXTS, MAY), (ACTIONS, SOME)],
    "action": [([0x0C, 0x12] + ACTION_CODES, MUST), (TEXTS, MAY)],
    "system": [(TEXTS, MAY)],
    "setting": [(VALUES, SOME), ([], PAIRED)],
    "branch": [([0x11], SOME), ([0x12], MAY)],
    "case": [(VALUES, MUST), ([0x12], MUST)],
    "reference": [([0x0C], SOLE)],
    "exit": [([0x0D], MAY)],
    "length": [([0x0D], MUST)],
    "whole": [([0x01, 0x81], MUST)],
}

# the tags beyond the base, by the kind of their container
BEYONDS = {
    "unit": [0x41, 0x42, 0x47, 0xC7, 0x49, 0x4A, 0xCA, 0x4B, 0xCB],
    "modifier": TEXTS,
    "action": ACTION_CODES,
}

# what follows the fixed bytes of a value
DATA, INNER, SIMPLE, NUMBERED, LENGTH_VALUE, SUBSTITUTION = range(1, 7)

# the kind of container, what follows, the fixed bytes, the tags
SHAPES = [
    ("page", INNER, 0, [0x01, 0x81]),
    ("unit", INNER, 0, UNITS),
    ("unjudged", INNER, 0, [0x10, 0x13, 0x93, 0x16, 0x4A, 0xCA]),
    ("case", INNER, 0, [0x11]),
    ("reference", INNER, 0, [0x12]),
    ("back", INNER, 0, [0x43, 0xC3]),
    ("exit", INNER, 0, [0x45, 0xC5]),
    ("modifier", INNER, 2, MODIFIERS),
    ("action", INNER, 1, ACTIONS),
    ("unjudged", INNER, 1, [0x41, 0x4B, 0xCB]),
    ("branch", INNER, 1, [0x44]),
    ("length", INNER, 1, [0x48]),
    ("unjudged", INNER, 2, [0x47, 0xC7, 0x49]),
    ("command", SIMPLE, 3, [0x46, 0xC6]),
    ("setting", NUMBERED, 1, [0x40]),
    ("unjudged", LENGTH_VALUE, 0, [0x07]),
    ("unjudged", SUBSTITUTION, 0, [0x0E, 0x8E, 0x0F, 0x8F, 0x14]),
    ("unjudged", DATA, 1, [0x03]),
    ("unjudged", DATA, 4, [0x42]),
    ("unjudged", DATA, 0, [0x02, 0x04, 0x05, 0x06, 0x0B, 0x0C, 0x0D, 0x15, 0x95]),
]

# the least and the most bytes of a name, and the tags
SIZES = [(1, 32, [0x02, 0x0B]), (1, 17, [0x03]), (0, 16, [0x04]), (1, 16, [0x06])]


def cell(kind, tag):
    """Sixteen times the place of the tag's part, counted from 1, and how often."""
    for place, (tags, often) in enumerate(GRAMMAR.get(kind, []), 1):
        if tag in tags:
            return place * 16 + often
    return 0


def needs(kind):
    """What the parts of a kind ask of a row: two at most."""
    asks = []
    for place, (_, often) in enumerate(GRAMMAR.get(kind, []), 1):
        ask = {MUST: place * 16 + 1, SOLE: 1, SOME: place * 16 + 4, PAIRED: 2}.get(often)
        if ask is not None:
            asks.append(ask)
    assert len(asks) <= 2
    return asks + [0] * (2 - len(asks))


def beyonds(tag):
    """A bit for each kind of container in which a tag is beyond the base: units, modifiers, actions."""
    return sum(1 << bit for bit, kind in enumerate(BEYONDS) if tag in BEYONDS[kind])


def shape(tag):
    """The kind of container that a tag is, what follows its fixed bytes, and their count: in octal, from left to right."""
    for kind, follows, fixed, tags in SHAPES:
        if tag in tags:
            return KINDS.index(kind) * 64 + follows * 8 + fixed
    return 0


def size(tag):
    """Sixty-four times the least size of a tag's value, and the most."""
    for least, most, tags in SIZES:
        if tag in tags:
            return least * 64 + most
    return 0


def column(tag):
    """All that the rules say of a tag: tags of which they say the same share a column."""
    cells = [cell(kind, tag) for kind in KINDS]
    return cells, beyonds(tag), shape(tag)


def chunks(numbers, width):
    return [numbers[i : i + width] for i in range(0, len(numbers), width)]


def code(name, rows):
    body = "\\\n    ".join("".join(f"\\x{x:02x}" for x in row) for row in rows)
    return f'const {name}: [u8; {sum(map(len, rows))}] = *b"{body}";\n'


def proof(name, rows):
    body = " ++\n".join(f"    hex {len(row)} 0x{''.join(f'{x:02x}' for x in row)}" for row in rows)
    return f"unfoldable pub {name} : List ℕ\n{name} =\n{body}\n"


def show(name, constant, rows):
    print(code(constant, rows))
    print(proof(name, rows))


def show_octal(name, constant, numbers):
    print(f"const {constant}: [u16; {len(numbers)}] = [{', '.join(f'0o{n:03o}' for n in numbers)}];\n")
    print(f"unfoldable pub {name} : List ℕ\n{name} = {' ∷ '.join(f'0o{n:03o}' for n in numbers)} ∷ []\n")


def main():
    columns = [column(None)]
    for tag in range(256):
        if column(tag) not in columns:
            columns.append(column(tag))

    # a slot for each tag up to '16' and from '40' to '4B'; 64 more where the rules say the same of the tag with attributes
    slotted = list(range(0x17)) + list(range(0x40, 0x4C))
    slots = []
    for tag in slotted:
        here = columns.index(column(tag))
        there = columns.index(column(tag + 128))
        assert there in (0, here)
        slots.append(here + 64 * (there > 0))
    assert all(column(tag) == columns[0] for tag in range(256) if tag % 128 not in slotted)

    print(f"kinds {len(KINDS)}, width {len(columns)}\n")
    show("columns", "COLUMNS", [slots[:0x17], slots[0x17:]])
    cells = [[c[0][k] for c in columns] for k in range(len(KINDS))]
    for k in range(0, len(KINDS), 4):
        show(f"cells{k}", f"CELLS_{k}", cells[k : k + 4])
    show("asked", "NEEDS", [needs(kind) for kind in KINDS])
    show("beyond_bits", "BEYONDS", [[c[1] for c in columns]])
    show_octal("table", "SHAPES", [c[2] for c in columns])
    assert not any(size(tag) for tag in range(16, 256))
    show("limits", "SIZES", [[size(tag) for tag in range(16)]])


if __name__ == "__main__":
    main()
