#!/usr/bin/env python3
"""Spells the definitions and lemmas of this repository as today's Rattle does: snake case, words joined by `_`.

usage: python3 tools/names.py [ROOT]

Run it once, right behind port.py: it reads names.tsv beside it, a row for each name (old, new), and turns whole words in crates/ (.antt, .rt, must-fail/*.edit)
and in code spans of README.md and docs/*.md. Rows whose third column is a path turn in the files whose path begins so, and nowhere else. In comments a name with a
dash stays, since it may be English; and no string of the code is touched. In a proof file the proof of a function f gets the name f_spec.
"""
import os
import re
import sys

HERE = os.path.dirname(os.path.realpath(__file__))
WORD = re.compile(r"""[^\s(){}.;,@"«»]+""")
SPAN = re.compile(r"`[^`\n]+`")
STRING = re.compile(r'b?"(?:\\.|[^"\\])*"')
SPEC = re.compile(r"[+a-z0-9-]+-spec")


def table(root):
    whole, some = {}, []
    with open(os.path.join(HERE, "names.tsv"), encoding="utf-8") as f:
        for line in f:
            row = line.rstrip("\n").split("\t")
            if len(row) == 2:
                whole[row[0]] = row[1]
            elif len(row) == 3:
                some.append(row)
    return whole, some


def turned(text, names, proof=False):
    def one(m):
        word = m[0]
        if proof and SPEC.fullmatch(word):
            return word.lstrip("+").replace("-", "_")
        return names.get(word, word)

    return WORD.sub(one, text)


def comment(text, names):
    plain = {n: t for n, t in names.items() if "-" not in n}
    out, at = [], 0
    for m in SPAN.finditer(text):
        out += [turned(text[at : m.start()], plain), "`" + turned(m[0][1:-1], names) + "`"]
        at = m.end()
    return "".join(out + [turned(text[at:], plain)])


def antt(text, names, proof):
    lines = []
    for line in text.split("\n"):
        m = re.search(r"(?<!\S)--(?=\s|$)", line)
        code, rest = (line, "") if not m else (line[: m.start()], line[m.start() :])
        lines.append(turned(code, names, proof) + comment(rest, names))
    return "\n".join(lines)


def rt(text, names):
    lines = []
    for line in text.split("\n"):
        m = re.search(r"//", line)
        code, rest = (line, "") if not m else (line[: m.start()], line[m.start() :])
        out, at = [], 0
        for s in STRING.finditer(code):
            out += [turned(code[at : s.start()], names), s[0]]
            at = s.end()
        lines.append("".join(out + [turned(code[at:], names)]) + comment(rest, names))
    return "\n".join(lines)


def page(text, names):
    return SPAN.sub(lambda m: "`" + turned(m[0][1:-1], names) + "`", text)


def main(root):
    whole, some = table(root)
    for folder, dirs, files in os.walk(root):
        dirs[:] = sorted(d for d in dirs if d not in ("out", ".git", "changes"))
        for f in sorted(files):
            path = os.path.join(folder, f)
            rel = os.path.relpath(path, root)
            kind = os.path.splitext(f)[1]
            inside = rel.startswith("crates" + os.sep)
            if not (inside and kind in (".antt", ".rt", ".edit") or kind == ".md" and (rel == "README.md" or rel.startswith("docs" + os.sep) and "PORT" not in rel)):
                continue
            names = dict(whole)
            for old, new, where in some:
                if rel.startswith(where):
                    names[old] = new
            with open(path, encoding="utf-8") as it:
                text = it.read()
            if kind == ".antt":
                new = antt(text, names, f == "Proof.antt")
            elif kind == ".rt":
                new = rt(text, names)
            elif kind == ".edit":
                new = antt(text, names, False) if ".antt\n" in text else rt(text, names)
            else:
                new = page(text, names)
            if new != text:
                with open(path, "w", encoding="utf-8") as it:
                    it.write(new)


if __name__ == "__main__":
    main(sys.argv[1] if len(sys.argv) > 1 else ".")
