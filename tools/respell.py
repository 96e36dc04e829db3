#!/usr/bin/env python3
"""Spells this repository's own definitions and lemmas in snake case, by respell.tsv beside this script: old, a tab, new.

    tools/respell.py [FOLDER]     once, over a tree that still has the older spelling (the present folder, else FOLDER)

It turns whole words: in specs/ and in lemma files all of them, but those that the file takes from a library under the same word; in
the proof of one function what it takes from this repository's modules, and fields; in src/ the clauses, the ghost items and comments;
in must-fail edits the same words; in pages what stands in code spans. Strings, inputs and outputs stay.
"""
import glob
import os
import re
import sys

HERE = os.path.dirname(os.path.abspath(__file__))
WORD = r'[^\s(){}.;,@"«»`]+'
USE = re.compile(r"(?m)^\s*(?:ghost\s+)?(?:pub )?use\s+([^\s;{]+?)\.\{([^}]*)\}")
FIELD = re.compile(r"(?m)^  (?:pub )?(" + WORD + r") (?:\{[^{}]*\} )?: ")


def table():
    rows = {}
    for line in open(os.path.join(HERE, "respell.tsv"), encoding="utf-8"):
        old, new = line.rstrip("\n").split("\t")
        rows[old] = new
    return rows


def own(path, crates):
    """Whether a module is one of this repository's."""
    parts = path.split(".")
    return parts[0] == "Rattle" and len(parts) > 1 and parts[1] in crates


def taken(text, crates):
    """The words that a file takes from this repository's modules, and from libraries."""
    ours, others = set(), set()
    for path, words in USE.findall(text):
        for item in words.split(","):
            item = item.strip().split(" as ")[0].strip()
            (ours if own(path, crates) else others).add(item)
    return ours, others


def turned(text, rows, only=None, after_dot=None):
    """The text with each whole word turned; only: the words that may stand behind no dot; after_dot: those behind one."""
    def word(m):
        w = m.group(0)
        if w not in rows:
            return w
        dotted = m.start() > 0 and text[m.start() - 1] == "."
        if dotted and after_dot is not None and w not in after_dot:
            return w
        if not dotted and only is not None and w not in only:
            return w
        return rows[w]
    return re.sub(WORD, word, text)


def in_prose(text, rows):
    """A comment: words in camel case, and others where they stand in brackets or in a code span."""
    text = re.sub(r"\b[a-z][a-z0-9]*[A-Z]\w*(?![\w-])", lambda m: rows.get(m.group(0), m.group(0)), text)
    inside = lambda m: m.group(1) + ", ".join(rows.get(w, w) for w in m.group(2).split(", ")) + m.group(3)
    text = re.sub(r"(\()((?:[\w'-]+, )*[\w'-]+)(\))", inside, text)
    return re.sub(r"(`)([^`\n]+)(`)", lambda m: m.group(1) + turned(m.group(2), rows) + m.group(3), text)


def by_parts(text, comment, rows, **how):
    """Code and comments of one file."""
    out, at = [], 0
    for m in re.finditer(r'"(?:\\.|[^"\\\n])*"|' + comment + r"[^\n]*", text):
        out.append(turned_code(text[at:m.start()], rows, **how))
        out.append(m.group(0) if m.group(0).startswith('"') else in_prose(m.group(0), rows))
        at = m.end()
    out.append(turned_code(text[at:], rows, **how))
    return "".join(out)


def turned_code(text, rows, **how):
    return turned(text, rows, **how)


def main():
    root = sys.argv[1] if len(sys.argv) > 1 else "."
    os.chdir(root)
    rows = table()
    crates = set(os.listdir("crates"))
    fields = set()
    specs = sorted(glob.glob("crates/*/specs/**/*.antt", recursive=True) + glob.glob("crates/*/proofs/*.antt"))
    for path in specs:
        text = open(path, encoding="utf-8").read()
        for block in re.findall(r"(?ms)^(?:pub )?record .*?(?=^\S|\Z)", text):
            fields.update(FIELD.findall(block))
    files = specs + sorted(p for p in glob.glob("crates/*/proofs/*/**/*.antt", recursive=True))
    files += sorted(glob.glob("crates/*/src/**/*.rt", recursive=True))
    files += sorted(glob.glob("crates/*/must-fail/**/*.edit", recursive=True))
    for path in files:
        text = open(path, encoding="utf-8").read()
        ours, others = taken(text, crates)
        here = {old: new for old, new in rows.items() if old not in others or old in ours}
        if path in specs:
            new = by_parts(text, "--", here)
        elif path.endswith(".antt"):
            made = set(re.findall(r"(?m)^\s+(" + WORD + r") = ", text)) & fields
            new = by_parts(text, "--", here, only=ours | made, after_dot=fields | {w for w in ours})
        elif path.endswith(".rt"):
            camel = {w for w in rows if re.match(r"[a-z]+[a-z0-9]*[A-Z]", w)}
            new = by_parts(text, "//", here, only=ours | camel, after_dot=fields & camel)
        else:
            lines = text.split("\n")
            spec = ""
            for i, line in enumerate(lines):
                if line.startswith("file: "):
                    spec = line
                if line.startswith("#"):
                    lines[i] = in_prose(line, rows)
                elif line.startswith(("old: ", "new: ")):
                    source = spec.endswith(".rt")
                    camel = {w for w in rows if re.match(r"[a-z]+[a-z0-9]*[A-Z]", w)}
                    lines[i] = line[:5] + turned(line[5:], rows, **({"only": camel, "after_dot": camel} if source else {}))
            new = "\n".join(lines)
        if new != text:
            open(path, "w", encoding="utf-8").write(new)
    for path in ["README.md", *sorted(glob.glob("docs/*.md")), *sorted(glob.glob("docs/changes/*.md"))]:
        text = open(path, encoding="utf-8").read()
        new = re.sub(r"(`)([^`\n]+)(`)", lambda m: m.group(1) + turned(m.group(2), rows) + m.group(3), text)
        if new != text:
            open(path, "w", encoding="utf-8").write(new)


if __name__ == "__main__":
    main()
