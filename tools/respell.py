#!/usr/bin/env python3
"""Respells the names that this repository's specs/ and proofs/ define: words in snake case, a dash between two names.

usage: respell.py [--show] [FOLDER]

FOLDER is a checkout, the current folder by default. It is to run once, on the files as the toolchain's own script
leaves them. A definition, a constructor, a field or a clause's word is snake case throughout. In a lemma's name a
dash stays before a part that is itself a name of a definition, and becomes `_` before a plain word. Names that the
check makes (goals, invariants, measures), type names and the standard's own names (SHL, H0 ..) stay. Functions,
strings and comments of src/ stay too. With --show it prints the names and writes nothing.
"""
import os
import re
import sys

GENERATED = re.compile(r"^(returns|loop-|invariant-|decreases-|overflow-|bounds-|slice-bounds|slice_bounds|nonzero|unreachable|prove-|offset|ghost-|.*-requires(-\d+)?$|.*-requires-|check-(entries|item|items)-)")
WORD = r"[^\s(){};,.\[\]λ]+"
LIST_WORDS = "length take drop append replicate map set get or and cond suc zero less add sub mul div mod max min some none ok err true false nil cons".split()
PLAIN = set("less more none some ok err true false at of add get or and set is in from by".split())
# where the plain rule would give a name that another definition has, or the old library's word stands in the name
BY_HAND = {
    "after-add": "after_add_lem",
    "after-remove": "after_remove_lem",
    "record-in": "record_in_lem",
    "record-line": "record_line_lem",
    "slots-of": "slots_of_lem",
    "getD-cut": "get_or-cut",
    "bytes-reverseAux": "bytes-reverse_aux",
}

FIELDS = set()


def files(root):
    for folder, dirs, names in os.walk(os.path.join(root, "crates")):
        dirs[:] = sorted(d for d in dirs if d != "out")
        for name in sorted(names):
            yield os.path.join(folder, name)


def defined(root):
    """The names that .antt files define, as {name: is it a lemma}."""
    found = {}
    for path in files(root):
        if not path.endswith(".antt") or path.endswith("Lib.antt"):
            continue
        inside = None
        for line in open(path, encoding="utf-8"):
            if re.match(r"^(use |--|unfolding |\s*$)", line):
                if not line.strip():
                    inside = None
                continue
            top = re.match(r"^((?:(?:abbrev|unfoldable|pub|data|record|ruleset)\s+)*)(%s)\s*(.*)$" % WORD, line)
            if top and (top.group(1) or re.match(r"^(:|\{|\()", top.group(3)) and ":" in top.group(3)):
                kinds = top.group(1).split()
                if "data" in kinds or "record" in kinds:
                    inside = "record" if "record" in kinds else "data"
                    continue
                inside = None
                if "goal." in line or "the-invariant" in line:
                    continue
                name = top.group(2)
                lemma = not ({"abbrev", "unfoldable", "ruleset"} & set(kinds))
                found[name] = found.get(name, True) and lemma
            elif inside:
                member = re.match(r"^\s+(?:pub\s+)?(?:\|\s*)?(%s)\s*:" % WORD, line)
                if member:
                    found[member.group(1)] = False
                    if inside == "record":
                        FIELDS.add(member.group(1))
    return found


def snake(part):
    if re.match(r"^[a-z]", part):
        return re.sub(r"(?<=[a-z0-9])([A-Z])", lambda m: "_" + m.group(1).lower(), part)
    return part


def respelled(found):
    names = {n for n, lemma in found.items() if not lemma and n not in FIELDS}
    known = {snake(n).replace("-", "_") for n in names} | set(LIST_WORDS)
    known -= PLAIN
    turned = {}
    for name, lemma in found.items():
        if GENERATED.match(name) or "◌" in name:
            continue
        parts = [snake(p) for p in name.split("-")]
        if not all(parts):
            continue
        new = parts[0]
        for part in parts[1:]:
            new += ("-" if lemma and part in known else "_") + part
        new = new.replace("\u2032", "'")
        new = BY_HAND.get(name, new)
        if new != name:
            turned[name] = new
    return turned


def main():
    show = "--show" in sys.argv
    rest = [a for a in sys.argv[1:] if a != "--show"]
    root = rest[0] if rest else "."
    found = defined(root)
    turned = respelled(found)
    back = {}
    for old, new in sorted(turned.items()):
        back.setdefault(new, []).append(old)
    for new, olds in back.items():
        if len(olds) > 1 or new in found:
            print("falls together: %s <- %s%s" % (new, " ".join(olds), " (and one of that name)" if new in found else ""))
    if show:
        for old, new in sorted(turned.items()):
            print(old, new)
        return
    word = re.compile(WORD)

    def turn(text):
        return word.sub(lambda m: turned.get(m.group(0), m.group(0)), text)

    for path in files(root):
        if not path.endswith((".antt", ".rt", ".edit")):
            continue
        text = open(path, encoding="utf-8").read()
        lines = []
        for line in text.split("\n"):
            code = line.lstrip()
            if code.startswith("--") or code.startswith("//") or (path.endswith(".rt") and '"' in line and "ensures" not in line):
                lines.append(line)
            else:
                lines.append(turn(line))
        new = "\n".join(lines)
        if new != text:
            open(path, "w", encoding="utf-8").write(new)


if __name__ == "__main__":
    main()
