#!/usr/bin/env python3
"""Renames the repository's own choice, if◌then◌else◌, to if◌then◌otherwise◌: the library has an operator of that name today, and
`rt ci` refuses another one under it. Turned are specs/, proofs/, clauses of src/ and must-fail edits of these.

usage: python3 tools/port/own_choice.py          at the top of the repository, once, after snake_names.py"""
import glob
import re


def words(text):
    return re.sub(r"(?<![\w.'◌-])else(?![\w'◌-])", "otherwise", text.replace("if◌then◌else◌", "if◌then◌otherwise◌").replace("if_then_else_", "if◌then◌otherwise◌"))


def antt(text):
    return "\n".join(words(line) if "--" not in line else words(line[: line.index("--")]) + line[line.index("--") :] for line in text.split("\n"))


def clauses(text):
    """The text of a source, its clauses and ghost imports turned."""
    out, at = [], 0
    for m in re.finditer(r"\b(?:requires|ensures)\*?(?: \w+)? \{|\bghost \w+: \{|^ghost use [^\n]*", text, re.M):
        if m.start() < at:
            continue
        end = m.end()
        if m.group(0).endswith("{"):
            depth = 1
            while depth:
                depth += {"{": 1, "}": -1}.get(text[end], 0)
                end += 1
        out += [text[at : m.start()], words(text[m.start() : end])]
        at = end
    return "".join(out) + text[at:]


def edit(text):
    out, of = [], ""
    for line in text.split("\n"):
        if line.startswith("file: "):
            of = line[6:].strip()
        if line.startswith(("old: ", "new: ")):
            if of.endswith(".antt"):
                line = words(line)
            else:
                line = clauses(line) if re.search(r"\b(requires|ensures)\b|ghost use", line) else line
        out.append(line)
    return "\n".join(out)


done = 0
for pattern, turn in (("specs/**/*.antt", antt), ("proofs/**/*.antt", antt), ("src/**/*.rt", clauses), ("must-fail/*.edit", edit)):
    for path in sorted(glob.glob(f"crates/*/{pattern}", recursive=True)):
        with open(path, encoding="utf-8") as f:
            text = f.read()
        new = turn(text)
        if new != text:
            done += 1
            with open(path, "w", encoding="utf-8") as f:
                f.write(new)
print(f"{done} files")
