#!/usr/bin/env python3
"""Brings the definitions and lemmas of specs/ and proofs/ to one spelling: facts and types in upper camel case, everything else in snake case.

usage: python3 tools/respell.py [FOLDER]     at the top of the repository, or with its path; once

It rewrites *.antt, the clauses of *.rt and must-fail/*.edit in place. It prints each name that it turns, and stops before it
writes anything if two names would fall together. Functions of src/, strings and comments of src/ keep their spelling.
"""

import collections
import os
import re
import sys

WORD = r"[^\s(){}\[\].,;:\"⌜⌝«»∥λ]+"
SIGNATURE = re.compile(r"^(\s*)((?:abbrev |unfoldable |pub )*)(" + WORD + r") : ?(.*)$")
RECORD = re.compile(r"^(\s*)((?:pub |abbrev )*(?:data|record)) (" + WORD + r")(.*)$")
GENERATED = ("Answers.antt", "Invariants.antt", "Given.antt", "Goals.antt")
# The forms of the grammar are numbered.
DIGITS = {"1": "One", "2": "Two", "3": "Three", "4": "Four"}


def files(root, endings):
    for folder, dirs, names in os.walk(os.path.join(root, "crates")):
        dirs[:] = sorted(d for d in dirs if d != "out")
        for name in sorted(names):
            if name.endswith(endings):
                yield os.path.join(folder, name)


def is_answers(path):
    """A file of answers has goals' names, which the checker makes; all else that a crate declares is its own."""
    return os.path.basename(path) in GENERATED and "/proofs/" in path


def declared(root):
    """The names that specs/ and proofs/ declare: name -> whether it is a type."""
    found = collections.OrderedDict()
    for path in files(root, (".antt",)):
        if is_answers(path):
            continue
        with open(path, encoding="utf-8") as f:
            lines = f.read().split("\n")
        for i, line in enumerate(lines):
            if line.lstrip().startswith(("--", "let ", "use ")):
                continue
            m = RECORD.match(line)
            if m:
                found[m.group(3)] = True
                continue
            m = SIGNATURE.match(line)
            if m:
                text = m.group(4)
                for more in lines[i + 1:]:
                    if not more.strip() or len(more) - len(more.lstrip()) <= len(m.group(1)):
                        break
                    text += " " + more.strip()
                found[m.group(3)] = found.get(m.group(3), False) or bool(re.search(r"(^|→ )Type( 0| \{0\})?\s*$", text.strip()))
    return found


def camel(name):
    words = [DIGITS.get(w, w) for w in re.split(r"[-_]", name)]
    return "".join(w[:1].upper() + (w[1:].lower() if w.isupper() or w == "UTF8" else w[1:]) for w in words if w)


def snake(name):
    return name.replace("-", "_").lower()


def turned(found):
    turn = {}
    for name, is_type in found.items():
        if "◌" in name:
            continue
        if is_type and name[:1].isupper():
            new = camel(name)
        elif "-" in name:
            new = snake(name)
        else:
            continue
        if new != name:
            turn[name] = new
    return turn


def fall_together(turn, found, root):
    """Names that would be one after the turning: with each other, or with another name of the repository's own."""
    back = collections.defaultdict(set)
    for old, new in turn.items():
        back[new].add(old)
    for name in found:
        if name not in turn:
            back[name].add(name)
    return {new: olds for new, olds in back.items() if len(olds) > 1}


def turn_text(text, turn):
    word = re.compile(r"(?<![\w'\-◌.])(" + "|".join(re.escape(n) for n in sorted(turn, key=len, reverse=True)) + r")(?![\w'\-◌])|(?<=[.])(" + "|".join(re.escape(n) for n in sorted(turn, key=len, reverse=True)) + r")(?![\w'\-◌])")
    return word.sub(lambda m: turn[m.group(0)], text)


def turn_rust(text, turn):
    """Only ghost items and clauses: a line that begins a clause or a ghost item, to its end."""
    out, depth, inside = [], 0, False
    for line in text.split("\n"):
        start = re.match(r"\s*(pub )?(ghost|requires|ensures)\b", line)
        if start and not inside:
            inside, depth = True, 0
        if inside:
            depth += line.count("{") - line.count("}")
            line = turn_text(line, turn)
            if depth <= 0:
                inside = False
        out.append(line)
    return "\n".join(out)


def main(root):
    found = declared(root)
    turn = turned(found)
    clash = fall_together(turn, found, root)
    if clash:
        for new, olds in sorted(clash.items()):
            print(f"falls together: {new}: {', '.join(sorted(olds))}")
        return 1
    for path in files(root, (".antt", ".rt", ".edit")):
        with open(path, encoding="utf-8") as f:
            text = f.read()
        if path.endswith(".rt"):
            new = turn_rust(text, turn)
        elif path.endswith(".edit") and "file: src/" in text:
            continue
        else:
            new = turn_text(text, turn)
        if new != text:
            with open(path, "w", encoding="utf-8") as f:
                f.write(new)
    for old in sorted(turn):
        print(f"{old} -> {turn[old]}")
    return 0


if __name__ == "__main__":
    sys.exit(main(sys.argv[1] if len(sys.argv) > 1 else "."))
