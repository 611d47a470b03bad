#!/usr/bin/env python3
"""Counts the places of each point of docs/DESIGN-PASS.md in crates/*/src, and of point 8 in crates/*/proofs.

usage: tools/places.py [POINT]   at the top of the repository

Without a point: a line for each with its count, and the counts of its groups. With a point: every place as `crate/src/file.rt:line name`.
A place that stands in several groups counts once for its point. What a pattern can say is found by it; the other places are listed here by name,
and a name that no longer stands in the source is gone. Groups of look-alikes are shown and not counted.
"""
import collections
import glob
import re
import sys

START = re.compile(r"(?m)^( *)(?:pub(?:\(\w+\))? )?(?:const |extern \"C\" )?(fn|enum|struct|const) (\w+)")
PARTS = re.compile(r"(?s)(.*?)((?:\n +(?:requires|ensures)\b[^\n]*)*)(\s\{\n.*)")
LOOP = re.compile(r"(?ms)^(?=( *)(while (?!let)[^{]*|[^\n]*\bloop )\{\n(.*?)^\1})")
Item = collections.namedtuple("Item", "path line kind name head contract body")
Place = collections.namedtuple("Place", "path line name")
Group = collections.namedtuple("Group", "label places counted", defaults=[True])


def items_of(path):
    """The functions, types and constants of a file: the head, the contract and the body of each."""
    with open(path, encoding="utf-8") as file:
        text = re.sub(r"(?m)(^|[ \t])//.*", "", file.read())
    for found in START.finditer(text):
        indent, kind, name = found.groups()
        opened = re.compile(r"(?m)[;{]$").search(text, found.end())
        end = opened.end() if opened[0] == ";" else re.compile("(?m)^%s}" % indent).search(text, opened.end()).end()
        whole = text[found.start():end]
        parts = PARTS.match(whole)
        head, contract, body = parts.groups() if parts else ("", "", whole)
        yield Item(path, text.count("\n", 0, found.start()) + 1, kind, name, head, contract, body)


ITEMS = [item for path in sorted(glob.glob("crates/*/src/*.rt")) for item in items_of(path)]


def place(item, further=0):
    return Place(item.path[len("crates/"):], item.line + further, item.name)


def listed(text, pattern=""):
    """The places of names given as `crate: name name; crate/file: name`, those that still stand and have a pattern."""
    found = []
    for entry in text.split(";"):
        crate, stem, names = re.fullmatch(r"\s*(\w+)/?(\w*): (.*)", entry).groups()
        path = re.compile("crates/%s/src/%s.rt" % (crate, stem or r"\w+"))
        found += [place(item) for name in names.split() for item in ITEMS
                  if item.name == name and path.fullmatch(item.path) and re.search(pattern, item.head + item.body)]
    return found


def functions(test):
    return [place(item) for item in ITEMS if item.kind == "fn" and test(item)]


def having(part, pattern):
    """Functions that have a pattern in their `head`, `contract` or `body`."""
    return functions(lambda item: re.search("(?s)" + pattern, getattr(item, part)))


def together(*names):
    return functions(lambda item: all(re.search(r"\b(%s): " % name, item.head) for name in names))


def loops(by_one):
    """Loops that count a name of their condition by one, or the other ones. A `while let` has no place to move."""
    found = []
    for item in ITEMS:
        for loop in LOOP.finditer(item.body) if item.kind == "fn" else []:
            steps = re.findall(r"\b(\w+) (?:[-+]= 1;|= \1 [-+] 1;)", loop[3])
            if any("loop " in loop[2] or re.search(r"\b%s\b" % name, loop[2]) for name in steps) == by_one:
                found.append(place(item, (item.head + item.contract + item.body[:loop.start()]).count("\n")))
    return found


def joined_tests(alone):
    """Functions of `bool` whose tests return true or false: those that are tests alone, or those with a `let`, a match or a loop too."""
    return functions(lambda item: item.head.endswith("-> bool") and "&mut" not in item.head and re.search(r"return (true|false);", item.body)
                     and alone != bool(re.search(r"\b(let|match|while|for|loop)\b", item.body)))


# Twins: names that differ only in a type, a size or a constant. Where one alone of a group still stands there is no twin.
TWINS = """slots: slot_type; records: record_type | slots: slot_value; records: record_value | slots: slot_length; records: record_length
slots: room_of; records: record_room | slots: room_with; records: record_room_with | slots: lay; records: lay | slots: lay_at; records: lay_at
slots: write_slot; records: write_record | slots: slot_fine; records: record_fine | slots: slots_fine; records: each_fine; trail: entries_fine
records: find_from free_record | variable: value_of type_of reading; reading: read | variable: permanent_value permanent_type permanent_reading
variable: string_value string_type string_reading | response: optimised_type optimised_bytes | response: output_type output_bytes
page: identification password keep_list service | page: page_row; unit: unit_row | unit: entry_in is_place_in | reader: next_in next
tlv: count_tag; unit: nth_tag; page: part_in | reader: head_in head_from head_at; tlv: head_at | reference: unit_from; forms: taken
forms: bad_reference is_marked | forms: UNITS; faultless: UNITS | forms: MODIFIERS; faultless: MODIFIERS | classes: shape_look judged_look
grammar: CELLS_0 CELLS_4 CELLS_8 CELLS_12 | classes: walk; faultless: clean row_clean | value: complaint_of value_into; valuetype: type_for
value: complaint_from length_from join_from; equal: is_value | execute: has_general optimises has_output | execute: general_told output_told
execute: general_number output_number | command: sent_length send_one | command: expanded_length expand | results: write_general write_output
whole: set_all set_length write_results | setting: set_all; parts: set_all | setting: set_length; parts: set_length | word: lock hold
word: unlock let_go want_none; state: wipe_page | moving: go_on; stepping: go_on | moving: fail; stepping: refuse | moving: want; parts: want_from
moving: end run_out; parts: end_page | moving: jump_to go_away; parts: leave_unit | moving: go_back; parts: turn_back turn_to
moving: branch_to; ways: way_to | moving: perform; ways: exit_way | sending: send_out; parts: send_command | branching: branch_choice; ways: unless
branching: is_undefined; sound: is_nothing | machine: is_ready is_waiting | machine: no_step no_run | machine: show_none; reading: hide
machine: Settled Begun Taken Gone Answered; moving: Moved; parts: Course | rules: Spot Found; lines: Count | rules: Part Choice; page: Span
leaf: pair; playing: pair; buffer: pair_at | packing: pack_stepped pack_ran pack_responded | packing: pack_told pack_loaded
cabi: usat_set_environment usat_load usat_step usat_run usat_respond usat_end usat_read | saying: say_ended say_written
hostcalls/main: step run respond load end write read | saying: say_stepped say_ran say_responded | playing: goes_on ends number; packing: writes
hostcalls/main: read_on; judging: read_on; playing: read_full | leaving: name_of; variable: service_of | unit: unit_count; forms: page_count
slots: sift keep_listed | trail: cut_to drop_above | trail: push_to push | state: front page_of""".replace("\n", " | ").split(" | ")

# Facts, as contracts spell them.
FACTS = [("an end in the bytes", r"\b(end|stop|to|at) ≤ length (\(take [^()]*\)|\w+\.now)"),
         ("a place before its end", r"\b(start|from|at) ≤ (start|stop|end)\b"), ("the page has 4096 bytes at most", r"length page\.now ≤ 4096"),
         ("a Service ID has 16 bytes at most", r"length \(service .*?\) ≤ 16"), ("an index below 64", r"k < 64"),
         ("an array has its length", r"length \w+\.(old|now) ≡ (\d+|size)"), ("a value has 255 bytes at most", r"length \w+\.now ≤ 255"),
         ("the lent buffer has 255 bytes", r"255 ≤ length out\.old"), ("what was tidy stays tidy", r"tidy_\w+ \w+\.old ≡ true → "),
         ("refused, so as it was", r"result ≡ false → "), ("the state is a card", r"Is state c "),
         ("the loader accepts the page", r"judge .*? ≡ (?:Accepted|Ok tt)"), ("an entry or a reference has 65 bytes at most", r"≤ 65\b"),
         ("a word has 65536 bytes at most", r"≤ 65536\b")]

# What a function says that answers or reads a number or no bytes for none, and neither Option nor Result.
PLAIN = r"(?s)\A(?!.*(\b(Option|Some|None|Err)\b|(?<!io::)Result<))"

# The answers of proofs/F/Answers.antt, by what stands behind the sign of equality. The first four are counted.
ANSWERS = [("search rules", r"\(?search rules\)?"), ("refl", r"\(?(λ \w+\. )?\(?refl(, refl)*\)*"), ("what was given", r"\(?λ (\w+)\. \1\)?"),
           ("omega arith", r"\(?omega arith\)?"), ("search (rules, a ruleset or more)", r"\(?search \(rules, \w+(, \w+)*\)\)?"),
           ("another search", r"search .*"), ("a term of its own", r".*")]


def proofs():
    told, crates, lemmas = collections.defaultdict(list), collections.defaultdict(collections.Counter), collections.defaultdict(set)
    for path in sorted(glob.glob("crates/*/proofs/**/*.antt", recursive=True)):
        with open(path, encoding="utf-8") as file:
            text = file.read()
        crate, kind = path.split("/")[1], path.split("/")[-1][:-len(".antt")]
        crates[crate][kind if kind in ("Answers", "Invariants") else "lemmas"] += text.count("\n")
        if kind == "Answers":
            for found in re.finditer(r"(?m)^(?!pub |use |--|abbrev |module )(\S+)(?: [^=\n]*)? = (.*(?:\n[ \t]+.*)*)", text):
                said = re.sub(r"\s+", " ", found[2]).strip()
                label = next(label for label, pattern in ANSWERS if re.fullmatch(pattern, said))
                told[label].append(Place(path[len("crates/"):], text.count("\n", 0, found.start()) + 1, found[1]))
        elif kind != "Invariants":
            for name in re.findall(r"(?m)^ *(?:pub )?([^\s:=]+) : ", text):
                lemmas[name].add(crate)
    shared = sorted(Place("%s: also in %s" % (first, ", ".join(others)), 0, name)
                    for name, found in lemmas.items() for first, *others in [sorted(found)] if others)
    lines = [Place("%s/proofs" % crate, sum(count.values()), ", ".join("%s %d" % pair for pair in sorted(count.items()))) for crate, count in crates.items()]
    yield from [Group(label, told[label], number < 4) for number, (label, _) in enumerate(ANSWERS)]
    yield from [Group("names that lemmas of several crates have", shared, False), Group("crates, with the lines of their proofs", lines, False)]


def points():
    one_bare = re.compile(r" \{\n    (\w+\(.*\),\n    \w+|\w+,\n    \w+\(.*\)),\n\}")
    arrays = [item for item in ITEMS if item.kind == "struct" and "[u8;" in item.body]
    return {
        1: ("own enums of the shape of Option or Result; flags and numbers for them", [
            Group("enums of two variants, one bare", [place(item) for item in ITEMS if item.kind == "enum" and one_bare.fullmatch(item.body)]),
            Group("enums with a nothing or a refusal among more variants", listed(
                "rules: Pair Body Look Action Choice Complaint Outcome Loaded; branching: Branch; ways: Way; hostcalls/calls: Call",
                r"Refus|Broken|Short|Fault|Pass|Stay|Unknown|Nothing|Unloaded")),
            Group("a number that says whether what lies beside it counts", listed("rules: Shown Stepped; playing: Turn; hostcalls/main: Host")),
            Group("constants that number kinds", listed("grammar: PAGE UNIT ACTION SYSTEM SETTING COMMAND WHOLE; loader: CLASSES;"
                "shape: DATA SIMPLE NUMBERED LENGTH_VALUE SUBSTITUTION INDICATOR")),
            Group("a kind, a class or a type taken as a number", having("head", r"\b(kind: usize|(within|class|follows|valuetype): (u8|usize))")),
            Group("a kind or a type answered as a number", listed(
                "slots: slot_type; records: record_type; page: type_of page_type; variable: type_of permanent_type string_type; shape: kind_at;"
                "response: text_type optimised_type output_type; valuetype: shared_type inline_type type_for; grammar: cell_of need_of; shape: shape_of",
                r"(?m)-> (u8|usize)$")),
            Group("a variable's area told by ranges of its number", listed(
                "variable: value_of type_of reading unserved writing; writing: write_variable; reading: read; records: fields_fine", r"0x40")),
            Group("a number that stands for none, answered or read", listed(
                "records: find_from find_record free_record place_for repeated; writing: write_permanent; reading: show_record; lines: find digit is_hex;"
                "variable: permanent_at permanent_value permanent_type permanent_reading; faultless: anchor_slot; leaving: join entry_into leave;"
                "value: value_into; setting: set_one; command: command_into; parts: send_command; stepping: take_step; forms: size_of out_of_size;"
                "grammar: cell_of need_of; shape: shape_of; moving: code_low note_refusal; machine: tag_at; hostcalls/main: add close;"
                "playing: take_payload take_record serve; page: page_row; unit: unit_row", PLAIN)),
            Group("no bytes that stand for none", listed("variable: service_of permanent_value string_value; slots: slot_value; records: record_value;"
                "trail: last_entry; leaving: name_of; response: optimised_bytes", PLAIN)),
            Group("`bool` for done or refused, with something lent to write", having("head", r"&mut.*-> bool$")),
            Group("look-alikes", listed("rules: Target Refusal; parts: Turn; stepping: Took; state: State; slice: byte_at; tlv: attribute_of;"
                "page: page_attribute; word: marked_word; packing: number lay_outcome; cabi: MISFIT; grammar: column_of"), False)]),
        2: ("twins", [Group(text, found) for text in TWINS for found in [listed(text)] if len(found) > 1]),
        3: ("loops that count by hand", [
            Group("an index or a number by one", loops(True)), Group("a place that moves by what was read", loops(False)),
            Group("look-alikes: `for` up to a number that no run reaches", having("body", r"\bfor _ in 0\.\."), False)]),
        4: ("equality, order, copies, conversion and printing by hand", [
            Group("a match that says true or false", having("body", r"=> (return )?(true|false),.*=> (return )?(true|false),")),
            Group("order and bounded numbers", listed("variable: rank worse; trail: reached less_one; faultless: left_after", r"\b(if|match)\b")),
            Group("bytes compared, searched and copied", listed(
                "leaf: same_bytes among_bytes; pour: copy wipe slide all_zero; equal: pass; whole: put_back; hostcalls/calls: of_bytes of_word of_words",
                r"\bwhile\b|same_bytes\(|\*temp")),
            Group("one type or number made into another", listed(
                "leaf: wide pair; buffer: pair_at put_pair decode encode; playing: pair number upper; slice: byte_at part_of; ber: shortest;"
                "packing: number lay lay_outcome pack_told pack_loaded pack_stepped pack_ran pack_responded pack_shown; cabi: pack; moving: code_low;"
                "handler: go_to action_by by_default; page: type_of; response: text_type; branching: follow branch_for; variable: missing; state: create;"
                "ways: unless; classes: shape_look judged_look; lines: digit is_hex byte unhex number_of count_of glyph hex; hostcalls/calls: of_line")),
            Group("printing", having("head", r"fn (say|say_\w+|show)\(\s*rt: ")), Group("tests alone, joined by `return`", joined_tests(True)),
            Group("look-alikes: `return` of a test before a `let`, a match or a loop", joined_tests(False), False),
            Group("look-alikes: `as` between numbers", having("body", r"\bas (u8|u16|u32|u64|usize)\b"), False)]),
        5: ("facts and parameters that travel together", [
            Group("the page and three areas", together("page", "env|environment", "temp|temporary", "perm|permanent")),
            Group("two areas lent to write", having("head", r"\btemp(orary)?: &mut.*\bperm(anent)?: &mut")),
            Group("tag, start, stop", together("tag|t", "start|from", "stop|to")),
            Group("a place and its end", together("start|from|at|own", "stop|end|to")), Group("page and len", together("page", "len")),
            Group("unit and place", together("unit", "place")), Group("out and a place in it", together("out", "place")),
            Group("within, last, cell", together("within", "last", "cell")), Group("attributes and a place", together("attributes", "at")),
            Group("a response and what stands after its result", together("response", "after"))]
            + [Group("fact: " + label, having("contract", pattern)) for label, pattern in FACTS]),
        6: ("buffers with a length, parallel arrays, searches, arenas", [
            Group("types of an array and a length", [place(item) for item in arrays if re.search(r"\blen(gth)?: usize", item.body)]),
            Group("a lent buffer is filled, and its length or a place answered", having("head", r": &mut \[u8.*-> usize$")),
            Group("an array, with its count beside it", listed(
                "setting: pairs_complaint pair_complaint set_one set_length; moving: jump_to go_away; parts: leave_unit send_command; leaving: leave;"
                "saying: say_bytes say_front say_shown; hostcalls/main: add close feed respond load write read; judging: answer add feed;"
                "state: page_of front rest; faultless: row_clean")),
            Group("entries of a fixed size in one array, at `k * size`", having("body", r"\* (260|280|66)\b")),
            Group("lists and tables searched by hand", listed(
                "records: find_from free_record repeated all_distinct; leaf: among_bytes; slots: sift; forms: taken; reference: mark unit_from; lines: find;"
                "grammar: slot_of cell_of need_of; faultless: slot_of; page: part_in; unit: nth_tag", r"\bwhile\b|find_from|\[i\]|if tag")),
            Group("fields by their offsets", listed("buffer: decode encode; slots: lay slot_fine; records: lay is_record fields_tidy; trail: cut_to put_at")),
            Group("tables of packed numbers", listed(
                "grammar: COLUMNS CELLS_0 CELLS_4 CELLS_8 CELLS_12 NEEDS BEYONDS; shape: SHAPES; forms: SIZES"))]),
        7: ("a switch on which step to run", [
            Group("a number that chooses the function", listed(
                "forms: faulty; classes: look_at cell_for lacking floor_of after; loader: judge; shape: contents; handler: list_of handle",
                r"(class|follows|list) [=<]|CLASSES|list_of")),
            Group("a flag that chooses", having("head", r"\b(list|substituted|kept|opened|optimises|required|changed|done): bool")),
            Group("the same frame around another call", listed(
                "whole: set_all set_length write_results; machine: set_environment load step run respond end read; hostcalls/main: step run respond load;"
                "hostcalls/main: end write read; cabi: usat_set_environment usat_load usat_step usat_run usat_respond usat_end usat_read",
                r"put_back|is_sound|buffer::SIZE|machine\.\w+\(")),
            Group("a walk that differs in what it does to each", loops(False)),
            Group("look-alikes: a match on what was read", listed("ways: code_way; stepping: take_step; moving: perform branch_to; hostcalls/main: act"), False)]),
        8: ("proofs", list(proofs()))}


def main():
    table = points()
    for number in [int(word) for word in sys.argv[1:]]:
        for group in table[number][1]:
            print("%s %d%s" % (group.label, len(set(group.places)), "" if group.counted else " (not counted)"))
            for found in group.places:
                print("    %s:%d %s" % found)
    for number, (title, groups) in table.items() if len(sys.argv) < 2 else []:
        total = len({found for group in groups if group.counted for found in group.places})
        parts = ["%d groups" % len(groups)] if number == 2 else ["%s %d" % (group.label, len(set(group.places))) for group in groups if group.counted]
        print("%d  %s: %d (%s)" % (number, title, total, "; ".join(parts)))


if __name__ == "__main__":
    main()
