#!/usr/bin/env python3
"""Respells the repository's own definitions, lemmas, members and ghost words as today's Rattle spells names.

usage: python3 tools/respell.py        at the top of the repository, once, after the toolchain's own port script

A name that a file below specs/ or proofs/ declares and that has hyphens becomes snake case, or camel case where it is a
type's and begins with a capital. Names of goals, which the check makes, stay. Comments, strings and code stay, but for
names in backticks in comments and in the pages of docs/ and README.md.
"""
import os
import re
import sys

# Names that would fall together with another once respelled.
OTHER = {"bit-time": "bit_time_of", "Sent-back": "IsSentBack"}
WORDS = r"(?:(?:abbrev|pub|unfoldable|opaque|instance|private|irrelevant)\s+)*"
GOALS = ("goal.", "given.", "need.")
NAME = re.compile(r"(?<![\w'\-◌])[A-Za-z][\w']*(?:-[\w']+)+(?![\w'\-◌])")


def files(ending):
    for folder, dirs, names in os.walk("crates"):
        dirs[:] = sorted(d for d in dirs if d != "out")
        for name in sorted(names):
            if name.endswith(ending):
                yield os.path.join(folder, name)


def read(path):
    with open(path, encoding="utf-8") as f:
        return f.read()


def declared(text):
    """The names that a file declares, without the goals that it answers."""
    for line in text.split("\n"):
        head = re.match(r"^\s*" + WORDS + r"(?:record|data)\s+(\S+)", line)
        if head:
            yield head.group(1)
            continue
        head = re.match(r"^\s*" + WORDS + r"([^\s(){}:=]+(?: [^\s(){}:=]+)*)\s*:\s(.*)$", line)
        if head and not line.startswith(("use ", "mod ", "module ")) and not head.group(2).startswith(GOALS):
            yield from head.group(1).split()


def spelling(name):
    if name in OTHER:
        return OTHER[name]
    if name[0].isupper():
        return "".join(w[:1].upper() + w[1:] for w in name.split("-"))
    return name.replace("-", "_")


def turn(text, names):
    return NAME.sub(lambda m: names.get(m.group(0), m.group(0)), text)


def quoted(text, names):
    return re.sub(r"`[^`\n]*`", lambda m: turn(m.group(0), names), text)


def turn_source(text, names, comment):
    """Turns what is neither a comment nor a string."""
    parts = re.split(r'("(?:[^"\\\n]|\\.)*"|' + comment + r"[^\n]*)", text)
    return "".join(p if p.startswith('"') else quoted(p, names) if re.match(comment, p) else turn(p, names) for p in parts)


def write(path, old, new):
    if new != old:
        with open(path, "w", encoding="utf-8") as f:
            f.write(new)
    return new != old


def main():
    names = {}
    for path in files(".antt"):
        for name in declared(read(path)):
            if "-" in name and NAME.fullmatch(name):
                names[name] = spelling(name)
    turned = 0
    for ending, comment in ((".antt", "--"), (".rt", "//")):
        for path in files(ending):
            old = read(path)
            turned += write(path, old, turn_source(old, names, comment))
    pages = ["README.md"] + [os.path.join("docs", n) for n in sorted(os.listdir("docs")) if n.endswith(".md") and not n.startswith("PORT")]
    for path in pages:
        old = read(path)
        turned += write(path, old, quoted(old, names))
    new = {}
    for old, word in sorted(names.items()):
        new.setdefault(word, []).append(old)
    for word, olds in new.items():
        if len(olds) > 1:
            print(f"fall together: {word}: {', '.join(olds)}")
    print(f"{len(names)} names, {turned} files")


if __name__ == "__main__":
    sys.exit(main())
