#!/usr/bin/env python3
"""vectors.py NAME.in NAME.out FOLDER [--first N] [--most BYTES]: turns scripts of host calls and the answers that they must get into a scratch
crate `trial` over the crate `rules`. Each script becomes a theorem, proved by computing, that the definitions give just these answers.

FOLDER is a repository of its own in the making: it gets crates.txt, a copy of crates/rules without its proofs, and crates/trial.
`rt check` in crates/trial names the scripts whose answers differ. --first takes only the first N scripts, --most leaves out scripts with a page
of more than so many bytes."""
import argparse
import os
import shutil

OUTCOMES = {"on": 0, "command": 1, "page": 2, "ended": 3, "refused": 4}
BUFFER = 255
SCRIPTS_IN_A_FILE = 40


def scripts(calls, answers):
    """The scripts of a vectors file: each begins with `create`, and has an answer for each call."""
    found = []
    for call, answer in zip(calls, answers, strict=True):
        if call == "create":
            found.append([])
        found[-1].append((call.split(), answer.split()))
    return found


def octets(text):
    """A list of bytes, as the definitions' `hex` reads it."""
    if text == "-":
        return "[]"
    return f"(hex {len(text) // 2} 0x{text})"


def number(text):
    return "0" if text == "-" else text


def buffer_after(command):
    used = 0 if command == "-" else len(command) // 2
    return f"({octets(command)} ++ replicate {BUFFER - used} 0)"


def call_term(words):
    name = words[0]
    if name == "create":
        return "create"
    if name == "env":
        return f"set_environment 0x{words[1]} {octets(words[2])}"
    if name == "load":
        return f"load {octets(words[1])}"
    if name == "step":
        return "step lent"
    if name == "run":
        return f"run_up_to {words[1]} lent"
    if name == "respond":
        return f"respond {octets(words[1])} lent"
    if name == "end":
        return "end"
    if name == "read":
        return f"read_variable 0x{words[1]} {octets(words[2]) if len(words) == 3 else '[]'}"
    raise ValueError(words)


def line_term(words):
    """What an answer line says, as the list that `line` makes of an answer."""
    name, answer = words[0], words[1]
    if name in ("create", "env", "end"):
        return f"({answer} ∷ []) ∷ []"
    if name == "load":
        return f"({answer} ∷ {number(words[2])} ∷ []) ∷ []"
    if name == "step":
        tag = "0" if words[4] == "-" else "0x" + words[4]
        return f"({answer} ∷ {OUTCOMES[words[2]]} ∷ {number(words[3])} ∷ {tag} ∷ []) ∷ {buffer_after(words[5])} ∷ {octets(words[6])} ∷ []"
    if name == "run":
        return f"({answer} ∷ {OUTCOMES[words[2]]} ∷ {words[3]} ∷ []) ∷ {buffer_after(words[4])} ∷ {octets(words[5])} ∷ []"
    if name == "respond":
        return f"({answer} ∷ {OUTCOMES[words[2]]} ∷ []) ∷ {buffer_after(words[3])} ∷ {octets(words[4])} ∷ []"
    if name == "read":
        size = 0 if words[3] == "-" else len(words[3]) // 2
        return f"({answer} ∷ {number(words[2])} ∷ {size} ∷ []) ∷ {buffer_after(words[3])} ∷ []"
    raise ValueError(words)


LINE = """-- What an answer line says of an answer.
use Rattle.std.specs.Prelude.{ℕ, List, [], ◌∷◌, replicate}
use Rattle.rules.specs.Numbers.{loaded_number, outcome_number, told_number, offset}
use Rattle.rules.specs.Calls.{Asked, Answer, told, loaded, taken, ran, responded, shown}
use Rattle.rules.specs.declared.Outcome.{Outcome}
use Rattle.rules.specs.declared.Outcome.TheVariants.{On, Command, Page, Ended, Refused}

unfoldable pub outcome : Outcome → ℕ
outcome On = 0
outcome (Command n) = 1
outcome Page = 2
outcome Ended = 3
outcome (Refused r) = 4

unfoldable pub line : Answer → List (List ℕ)
line (told t) = (told_number t ∷ []) ∷ []
line (loaded l) = (loaded_number l ∷ offset l ∷ []) ∷ []
line (taken s b r) = (outcome_number s.outcome ∷ outcome s.outcome ∷ s.unit ∷ s.tag ∷ []) ∷ b ∷ r ∷ []
line (ran s b r) = (outcome_number s.outcome ∷ outcome s.outcome ∷ s.count ∷ []) ∷ b ∷ r ∷ []
line (responded o b r) = (outcome_number o ∷ outcome o ∷ []) ∷ b ∷ r ∷ []
line (shown s) = (s.number ∷ s.valuetype ∷ s.length ∷ []) ∷ s.bytes ∷ []

unfoldable pub lines : List Answer → List (List (List ℕ))
lines [] = []
lines (a ∷ rest) = line a ∷ lines rest

unfoldable pub lent : List ℕ
lent = replicate 255 0
"""

HEAD = """use Rattle.std.proofs.Common.{◌≡◌, refl, List, [], ◌∷◌, ◌++◌, replicate}
use Rattle.rules.specs.Bytes.{hex}
use Rattle.rules.specs.Card.{created}
use Rattle.rules.specs.Calls.{create, set_environment, load, step, run_up_to, respond, end, read_variable, answers}
use Rattle.rules.specs.Open.{opened}
use Rattle.trial.specs.Line.{outcome, line, lines, lent}

"""


def theorem(index, script):
    calls = " ∷ ".join(f"({call_term(call)})" for call, _ in script)
    wanted = " ∷ ".join(f"({line_term(answer)})" for _, answer in script)
    return (f"script{index} : lines (answers ({calls} ∷ []) created) ≡ {wanted} ∷ []\n"
            f"unfolding opened outcome line lines lent\nscript{index} = refl\n\n")


def longest_page(script):
    return max([len(call[1]) // 2 for call, _ in script if call[0] == "load"], default=0)


def main():
    parser = argparse.ArgumentParser(description=__doc__)
    parser.add_argument("calls")
    parser.add_argument("answers")
    parser.add_argument("folder")
    parser.add_argument("--first", type=int)
    parser.add_argument("--most", type=int)
    given = parser.parse_args()
    with open(given.calls) as calls, open(given.answers) as answers:
        found = list(enumerate(scripts(calls.read().split("\n")[:-1], answers.read().split("\n")[:-1])))
    kept = [(i, s) for i, s in found if given.most is None or longest_page(s) <= given.most][: given.first]

    here = os.path.dirname(os.path.dirname(os.path.abspath(__file__)))
    rules = os.path.join(given.folder, "crates", "rules")
    trial = os.path.join(given.folder, "crates", "trial")
    for folder in (rules, trial):
        shutil.rmtree(folder, ignore_errors=True)
    for part in ("src", "specs"):
        shutil.copytree(os.path.join(here, "crates", "rules", part), os.path.join(rules, part))
    for part in ("src", "specs", "proofs"):
        os.makedirs(os.path.join(trial, part))
    files = {
        os.path.join(given.folder, "crates.txt"): "rules:\ntrial: rules\n",
        os.path.join(trial, "src", "lib.rt"): "// Theorems only.\n#![tactic(auto)]\n",
        os.path.join(trial, "specs", "Lib.antt"): "pub mod Line\n",
        os.path.join(trial, "specs", "Line.antt"): LINE,
    }
    names = []
    for start in range(0, len(kept), SCRIPTS_IN_A_FILE):
        names.append(f"Scripts{start // SCRIPTS_IN_A_FILE}")
        text = HEAD + "".join(theorem(i, s) for i, s in kept[start:start + SCRIPTS_IN_A_FILE])
        files[os.path.join(trial, "proofs", names[-1] + ".antt")] = text
    files[os.path.join(trial, "proofs", "Lib.antt")] = "".join(f"pub mod {name}\n" for name in names)
    for path, text in files.items():
        with open(path, "w") as out:
            out.write(text)
    print(f"{len(kept)} of {len(found)} scripts, {sum(len(s) for _, s in kept)} calls")


main()
