"""Lists the places in crates/*/src that a newer form might serve, and counts them.

    python3 tools/places.py          all points, their counts alone
    python3 tools/places.py 3        one point, with its places
    python3 tools/places.py 3 DIR    the same, of another checkout

A place that is listed is one to look at; docs/DESIGN-PASS.md says what each was and what became of it.
Tests are left out, but for loops.
"""

import collections
import difflib
import itertools
import pathlib
import re
import sys

FN = re.compile(r"^( *)(?:pub(?:\(crate\))? )?(?:final )?(?:const )?fn (\w+)")


def sources(root, tests=False):
    """Each source file by its name, with its lines."""
    for path in sorted(pathlib.Path(root).glob("crates/*/src/**/*.rt")):
        if tests or path.name != "tests.rt":
            yield str(path.relative_to(root)), path.read_text().splitlines()


def grep(root, pattern, tests=False):
    """The places whose line has the pattern, comments and ghost imports left out."""
    found = []
    for name, lines in sources(root, tests):
        for number, line in enumerate(lines, 1):
            code = line.split("//")[0]
            if re.search(pattern, code) and not code.startswith("ghost use"):
                found.append((f"{name}:{number}", line.strip()))
    return found


def functions(root, tests=False):
    """Each function: its place, its name, its head with the contract, its body."""
    for name, lines in sources(root, tests):
        for start, line in enumerate(lines):
            match = FN.match(line)
            if not match:
                continue
            indent = match.group(1)
            end = start
            while end < len(lines) and not lines[end].startswith(indent + "}") and not lines[end].endswith((";", "{}")):
                end += 1
            text = lines[start : end + 1]
            opening = next((k for k, part in enumerate(text) if part == indent + "{"), len(text) - 1)
            yield f"{name}:{start + 1}", match.group(2), text[:opening], text[opening:]


# What is listed for a point by a pattern of its lines. Tests are read for loops alone.
PATTERNS = {
    # own enums, and functions that answer a flag or a number of a kind
    1: {
        "enums": r"^\s*(pub(\(crate\))? )?enum ",
        "flags": r"\) -> (Result<)?bool\b|&mut self.*-> bool",
        "numbers": r"\bResult<.*, (u8|u16|usize)>|\) -> u8\b|\b(major|info|kind|mark): u8",
    },
    # loops over a range of numbers, and loops with a test
    3: {"ranges": r"\bfor \w+ in [^{]*\.\.", "tests": r"\bwhile\b|\bloop\b"},
    # conversion, printing, order and equality by hand
    4: {
        "conversions": r"\bfn (from_|to_|into_|number_of|protect|id|kind|name_of|status|place|words)\w*\b",
        "printing": r"format!\(|String::from_str\(|\bpush_str\(|\.push\(.*as char|\bfn fmt\b",
        "equality, order, copies": r"\bfn (eq|ne|cmp|lt|is_below|comes_before|same|clone|copy)\b",
    },
    # a switch on a step, a kind or a name, and chains of comparisons
    7: {
        "switches": r"\bmatch (step|kind|name|name_of|self|held|\(?key)\b",
        "chains": r"else if same\(",
    },
}


def by_pattern(root, point):
    """What the patterns of a point find."""
    return {title: grep(root, pattern, point == 3) for title, pattern in PATTERNS[point].items()}


def shape(lines):
    """A function's text with numbers, strings and the names of types and functions left out."""
    text = " ".join(part.strip() for part in lines)
    text = re.sub(r'b?"(\\.|[^"\\])*"', "S", text)
    text = re.sub(r"\b(0x[0-9a-f_]+|\d[\d_]*)\b", "N", text)
    text = re.sub(r"fn \w+", "fn F", text)
    return re.sub(r"\b[A-Z]\w*\b", "T", text)


def twins(root):
    """2: pairs of functions of nearly one shape, and files that share most of their lines."""
    every = [(place, name, shape(head + body), len(body)) for place, name, head, body in functions(root, True)]
    pairs = []
    for (p, n, a, k), (q, m, b, l) in itertools.combinations(every, 2):
        if min(k, l) < 3 or min(len(a), len(b)) < 0.8 * max(len(a), len(b)):
            continue
        ratio = difflib.SequenceMatcher(None, a, b, autojunk=False)
        if ratio.quick_ratio() >= 0.9 and ratio.ratio() >= 0.9:
            pairs.append((f"{p} {n}", f"{q} {m}"))
    files = []
    for (p, a), (q, b) in itertools.combinations(list(sources(root, True)), 2):
        same = {line.strip() for line in a if len(line.strip()) > 12} & {line.strip() for line in b}
        if len(same) >= 10 and p.split("/")[1] != q.split("/")[1]:
            files.append((p, f"{q} ({len(same)} lines)"))
    return {"functions": pairs, "files of two crates": files}


def facts(root):
    """5: facts that stand in three contracts or more, and parameters that travel together."""
    clauses = collections.defaultdict(set)
    together = collections.defaultdict(set)
    for place, name, head, _ in functions(root):
        crate = place.split("/")[1]
        text = " ".join(part.strip() for part in head)
        for clause in re.findall(r"(?:ensures|requires)(?: \w+)? \{ (.*?) \}(?= (?:ensures|requires)|;?$)", text):
            for part in re.split(r" × | → ", clause):
                if len(part) > 12:
                    clauses[(crate, part.strip("() "))].add(place)
        for word in set(re.findall(r"\b(model|given|cells|bytes_of|held|content|state_of|meant|whole|words_of) \(?\w", text)):
            clauses[(crate, f"{word} _")].add(place)
        listed = re.match(r".*?\((.*?)\) ?(->|ensures|requires|;|$)", text)
        names = re.findall(r"(\w+): ([^,]+)", listed.group(1)) if listed else []
        for pair in itertools.combinations(names, 2):
            together[(crate,) + pair].add(place)
    return {
        "facts": [(f"{crate}: {fact}", str(len(places))) for (crate, fact), places in sorted(clauses.items()) if len(places) >= 3],
        "parameters": [
            (f"{crate}: {a[0]}: {a[1]}, {b[0]}: {b[1]}", str(len(places)))
            for (crate, a, b), places in sorted(together.items())
            if len(places) >= 3
        ],
    }


def buffers(root):
    """6: structs with a buffer and a number beside it."""
    found = []
    for name, lines in sources(root):
        for start, line in enumerate(lines):
            if not re.match(r"^(pub(\(crate\))? )?struct \w+.*\{$", line):
                continue
            end = lines.index("}", start)
            fields = lines[start + 1 : end]
            buffer = any(re.search(r": (\[|Vec<|&.*\[)", part) for part in fields)
            number = any(re.search(r"\b(len|count|used|slots|size|at): (usize|u\d+)", part) for part in fields)
            if buffer and number:
                found.append((f"{name}:{start + 1}", line.strip()))
    return {"a buffer with a number beside it": found}


def proofs(root):
    """8: lines of proofs and answers in each crate."""
    rows = []
    for crate in sorted(pathlib.Path(root).glob("crates/*/")):
        lemmas = sum(len(p.read_text().splitlines()) for p in crate.glob("proofs/*.antt"))
        answers = [p.read_text() for p in crate.glob("proofs/*/**/*.antt")]
        lines = sum(len(text.splitlines()) for text in answers)
        goals = sum(len(re.findall(r": goal\.", text)) for text in answers)
        rows.append((crate.name, f"{lemmas} lines of lemmas, {lines} of answers to {goals} goals"))
    return {"crates": rows}


OTHERS = {2: twins, 5: facts, 6: buffers, 8: proofs}


def main():
    root = sys.argv[2] if len(sys.argv) > 2 else pathlib.Path(__file__).resolve().parent.parent
    chosen = [int(sys.argv[1])] if len(sys.argv) > 1 else range(1, 9)
    for point in chosen:
        listed = by_pattern(root, point) if point in PATTERNS else OTHERS[point](root)
        for title, places in listed.items():
            print(f"{point}, {title}: {len(places)}")
            if len(sys.argv) > 1:
                for place in places:
                    print("   ", "  ".join(place))


if __name__ == "__main__":
    main()
