#!/usr/bin/env python3
"""Lists, for each point of the design pass (docs/DESIGN-PASS.md), the places of src/ that may be one.

    python3 tools/places.py [POINT]

A line is a candidate, found by its text; docs/DESIGN-PASS.md says which of them are places.
"""
import collections
import glob
import os
import re
import sys

ROOT = os.path.join(os.path.dirname(os.path.abspath(__file__)), "..")


class Function:
    """One function of a source: its file, line, name, head with clauses, and body."""

    def __init__(self, file, line, name, head, body):
        self.file, self.line, self.name, self.head, self.body = file, line, name, head, body

    def __str__(self):
        return f"{self.file}:{self.line} {self.name}"


def sources():
    for path in sorted(glob.glob(os.path.join(ROOT, "crates", "*", "src", "**", "*.rt"), recursive=True)):
        with open(path, encoding="utf-8") as text:
            yield os.path.relpath(path, ROOT), text.read()


def functions():
    """Every function with a body; a clause stands on one line, so the body begins at the first line that is `{` or ends in it."""
    for file, text in sources():
        lines = text.split("\n")
        for at, line in enumerate(lines):
            head = re.match(r"^(\s*)(pub(\(crate\))? )?(extern \"C\" )?fn (\w+)", line)
            if not head:
                continue
            indent, start = head.group(1), at
            while lines[start] != indent + "{" and not re.search(r"(\) (-> [^{]*)?\{|;|\{\})$", lines[start]):
                start += 1
            if lines[start].endswith((";", "{}")):
                continue
            end = start
            while lines[end] != indent + "}":
                end += 1
            yield Function(file, at + 1, head.group(5), lines[at : start + 1], lines[start + 1 : end])


def grep(pattern):
    for file, text in sources():
        for at, line in enumerate(text.split("\n")):
            if re.search(pattern, line):
                yield f"{file}:{at + 1} {line.strip()}"


def own_enums():
    yield from grep(r"^\s*(pub(\(crate\))? )?enum ")
    yield from grep(r"^(\s*(pub(\(crate\))? )?(extern \"C\" )?fn .*)?\) -> (u8|u16|u32|u64|usize)( \{)?$")
    yield from grep(r"\) -> u8 \{$")


def shape(function):
    """The body with every number, type and name of a single use made one."""
    words = re.findall(r"[A-Za-z_]\w*|\d[\d_]*|\S", "\n".join(function.body))
    names = {}
    out = []
    for word in words:
        if re.match(r"\d", word):
            out.append("0")
        elif word in ("if", "else", "for", "in", "let", "mut", "return", "match", "while", "Some", "None", "Ok", "Err"):
            out.append(word)
        elif re.match(r"[A-Za-z_]", word):
            out.append(names.setdefault(word, f"n{len(names)}"))
        else:
            out.append(word)
    return " ".join(out)


def twins():
    alike = collections.defaultdict(list)
    for function in functions():
        if len(function.body) >= 2 and "tests.rt" not in function.file:
            alike[shape(function)].append(function)
    for group in alike.values():
        if len(group) > 1:
            yield " = ".join(str(function) for function in group)
    consts = collections.defaultdict(list)
    for line in grep(r"^const \w+: .* = "):
        consts[line.split(" = ", 1)[1]].append(line.split(" = ")[0])
    for value, group in consts.items():
        if len(group) > 1:
            yield f"{value} " + " = ".join(group)


def loops():
    yield from grep(r"^\s*for ")
    yield from grep(r"^\s*('\w+: )?while ")
    yield from grep(r"^\s*\w+ (\+|-)= 1;")


def by_hand():
    yield from grep(r"^impl.* (From<|TryFrom<|PartialEq|Eq |Ord|Clone|Copy|fmt::Display|Default)")
    yield from grep(r"\bfn (number|differs|field_at|\w+_of|of|most)\b")


def together():
    """Clauses that stand in three or more functions, and parameters that three or more functions have in common."""
    clauses, sets = collections.defaultdict(list), collections.defaultdict(set)
    for function in functions():
        text = " ".join(function.head)
        for line in function.head:
            found = re.match(r"\s*requires (\w+ )?\{ (.*) \}$", line)
            if found:
                for part in found.group(2).split(" × "):
                    clauses[part.strip("()")].append(function)
        names = re.findall(r"[(,]\s*(?:mut )?(\w+): ", re.split(r"\) ->|requires|ensures", text)[0])
        for a in range(len(names)):
            for b in range(a + 1, len(names)):
                for c in range(b + 1, len(names)):
                    sets[(names[a], names[b], names[c])].add(str(function))
    for clause, group in clauses.items():
        if len(group) > 2:
            yield f"requires {clause}: " + ", ".join(function.name for function in group)
    for names, group in sets.items():
        if len(group) > 2:
            yield f"parameters {', '.join(names)}: {len(group)} functions"


def buffers():
    yield from grep(r"\[[A-Za-z<>]+; \d+\]")
    yield from grep(r"^\s*(pub )?(count|len|start): usize,")


def switches():
    yield from grep(r"\bdyn \b|\bfn\(|impl Fn|: Fn")


def proofs():
    for crate in sorted(glob.glob(os.path.join(ROOT, "crates", "*"))):
        files = glob.glob(os.path.join(crate, "proofs", "**", "*.antt"), recursive=True)
        texts = [open(file, encoding="utf-8").read() for file in files]
        answers = sum(text.count(" : goal.") for text in texts)
        lines = sum(text.count("\n") for text in texts)
        yield f"{os.path.basename(crate)}: {lines} lines, {answers} answers and invariants"


POINTS = {"1": own_enums, "2": twins, "3": loops, "4": by_hand, "5": together, "6": buffers, "7": switches, "8": proofs}


def main():
    for point in sys.argv[1:] or POINTS:
        found = list(POINTS[point]())
        print(f"== {point}: {len(found)}")
        print("\n".join(found))


if __name__ == "__main__":
    main()
