#!/usr/bin/env python3
"""Respells the project's own definitions and lemmas in snake case, once, after port.py: words joined by dashes and words in
camel case get underscores, in specs/, proofs/, clauses and must-fail edits, and in the pages' code spans.

usage: respell.py OLD [--check]     in the repository; OLD is a folder that holds the tree as it was before port.py

Functions of src/, exported C names, strings, inputs and outputs keep their names, and so does what a proof names after the
generated goals (those are turned with the proofs). --check writes nothing and lists the names that fall together.
"""
import collections
import difflib
import glob
import os
import re
import sys

WORD = re.compile(r'[^\s(){}.;,@"«»`]+')
DECLARED = re.compile(r"^\s*(?:(?:abbrev|unfoldable|pub|private|record|data)\s+)*([^\s:(){}\[\],;.]+)(?: [({][^:]*:.*?[)}])* :\s", re.M)
NEED = re.compile(r"^([^\s:]+) : (?:tie|goal)\.", re.M)
# Local lemmas that would meet the definition that they are about.
LOCAL = {
    "crates/making/proofs/Fits.antt": ["kept_of"],
    "crates/runs/proofs/Keeping.antt": ["kept_of"],
    "crates/roundtrip/proofs/Whole.antt": ["area_of", "rows_in"],
    "crates/streams/proofs/Laws.antt": ["kept_by"],
}


def antt_files():
    for part in ("specs", "proofs"):
        yield from sorted(glob.glob("crates/*/%s/**/*.antt" % part, recursive=True))


def is_function_proof(path):
    return os.path.basename(path) in ("Proof.antt", "Answers.antt", "Invariants.antt")


def read(path):
    with open(path, encoding="utf-8") as f:
        return f.read()


def uncomment(text):
    return re.sub(r"(?m)^\s*--.*$|\s-- .*$", "", text)


def snake(name):
    words = re.sub(r"(?<=[a-zà-ÿ0-9ℤ])([A-Z])(?=[a-z0-9]|$|['_-])", lambda m: "_" + m[1].lower(), name)
    words = words.replace("-", "_")
    return re.sub("_+", "_", words)


def table():
    """The names that the project's texts declare and that change, each with its new spelling."""
    names, plain = {}, set()
    for path in antt_files():
        text = uncomment(read(path))
        needs = set(NEED.findall(text)) if is_function_proof(path) else set()
        for m in DECLARED.finditer(text):
            name = m[1]
            if name in needs or name[0].isupper() or not name[0].isalpha():
                continue
            if snake(name) == name:
                plain.add(name)
            else:
                names[name] = snake(name)
    # A lemma that would have its definition's name gets `_lem`.
    taken = plain | {b for a, b in names.items() if "-" not in a}
    for a, b in names.items():
        if "-" in a and b in taken:
            names[a] = b + "_lem"
    return names


def library_names(text):
    """What a file imports from elsewhere than the project's crates: those names stay in it."""
    own, out = set(os.listdir("crates")), set()
    for m in re.finditer(r"use ([\w.]+)\.\{([^}]*)\}", text):
        steps = m[1].split(".")
        if not (steps[0] == "Rattle" and len(steps) > 1 and steps[1] in own):
            out |= {w.strip().split(" as ")[-1] for w in m[2].split(",")} | {w.strip().split(" as ")[0] for w in m[2].split(",")}
    return out


def names_in(path, text, names):
    """The table as it holds in one file."""
    stay = library_names(text)
    here = {a: b for a, b in names.items() if a not in stay}
    here.update({a: a + "_lem" for a in LOCAL.get(path, [])})
    return here


def turned(text, names):
    return WORD.sub(lambda m: names.get(m[0], m[0]), text)


def turned_line(line, names):
    """A line of code with its comment: bare words of the comment turn if they are in camel case or behind backticks."""
    m = re.match(r"^(.*?)(\s*(?:--|//) .*)?$", line, re.S)
    code, comment = m[1], m[2] or ""
    if re.match(r"^\s*(--|//)", line):
        code, comment = "", line
    camel = {a: b for a, b in names.items() if "-" not in a}
    pieces = re.split(r'("(?:[^"\\]|\\.)*")', code)
    code = "".join(p if i % 2 else turned(p, names) for i, p in enumerate(pieces))
    comment = re.sub(r"`[^`]*`", lambda s: turned(s[0], names), turned(comment, camel))
    return code + comment


def turned_text(text, names):
    return "\n".join(turned_line(l, names) for l in text.split("\n"))


CLAUSE = re.compile(r"(?:\brequires|\bensures|\bghost use|\bghost|\binvariant)\b[^{;]*\{")


def turned_rust(text, names):
    """The clauses and ghost items of a source file, and its comments' code spans."""
    out, at = [], 0
    for m in CLAUSE.finditer(text):
        if m.start() < at:
            continue
        depth, end = 1, m.end()
        while depth and end < len(text):
            depth += {"{": 1, "}": -1}.get(text[end], 0)
            end += 1
        out += [comments(text[at : m.start()], names), turned_text(text[m.start() : end], names)]
        at = end
    return "".join(out) + comments(text[at:], names)


def comments(text, names):
    return re.sub(r"(?m)//.*$", lambda m: re.sub(r"`[^`]*`", lambda s: turned(s[0], names), turned(m[0], {a: b for a, b in names.items() if "-" not in a})), text)


# ---- must-fail edits: what port.py and this script did to the files, done to the edits' lines

TOKEN = re.compile(r'"(?:[^"\\]|\\.)*"|[^\s(){}.;,@"«»`\[\]]+|\s+|.')


def tokens(text):
    return [t for t in TOKEN.findall(text) if not t.isspace()]


def learned(old):
    """Which word of the old tree became which, over all files."""
    seen = collections.defaultdict(collections.Counter)
    for path in list(antt_files()) + sorted(glob.glob("crates/*/src/*.rt")):
        before = os.path.join(old, path)
        if not os.path.exists(before):
            continue
        a, b = tokens(read(before)), tokens(read(path))
        for op, i, j, k, l in difflib.SequenceMatcher(None, a, b, autojunk=False).get_opcodes() if len(a) < 20000 else []:
            if op == "equal":
                for t in a[i:j]:
                    seen[t][t] += 1
            elif op == "replace" and j - i == l - k:
                for s, t in zip(a[i:j], b[k:l]):
                    seen[s][t] += 1
    return {s: c.most_common(1)[0][0] for s, c in seen.items()}


def spelled(line, words, file_is_source):
    """A line of an edit in today's spelling."""
    line = re.sub(r"Rattle·(\w+)·(specs|proofs)\.\2", r"Rattle.\1.\2", line)
    line = re.sub(r"Rattle·(\w+)\.(specs|proofs)", r"Rattle.\1.\2", line)
    if not file_is_source or re.search(r"requires|ensures|ghost", line):
        line = re.sub(r" \.(?=[a-z0-9])", ".", line)
        line = WORD.sub(lambda m: words.get(m[0], m[0]), line)
        line = re.sub(r"(?<![\w◌])_([^\w\s]+)_(?![\w◌])", r"◌\1◌", line)
        line = re.sub(r"\((\w+(?:\.\w+)+)\)", r"\1", line)
        line = re.sub(r"\b((?:cell_at|load_reply) \w+ \w+)\.(?=\w)", r"(\1).", line)
    return line


def edits(old, words):
    """Each edit whose old text no longer stands gets today's spelling; what still doesn't fit is listed."""
    left = []
    for path in sorted(glob.glob("crates/*/must-fail/*.edit")):
        crate = path.split("/")[1]
        lines, out, file, texts, fits = read(path).split("\n"), [], None, {}, True
        new_lines = []
        for line in lines:
            if line.startswith("file:"):
                file = "crates/%s/%s" % (crate, line[5:].strip())
                out.append(line)
            elif line.startswith("old:") or line.startswith("new:"):
                turned_to = line[:5] + spelled(line[5:], words, file.endswith(".rt"))
                out.append(turned_to)
                if line.startswith("old:"):
                    held = turned_to[5:]
                else:
                    text = texts.get(file) or (read(file) if os.path.exists(file) else "")
                    if text.count(held) != 1:
                        fits = False
                    texts[file] = text.replace(held, turned_to[5:], 1)
            else:
                out.append(line)
        if not fits:
            left.append(path)
        new = "\n".join(out)
        if new != read(path):
            with open(path, "w", encoding="utf-8") as f:
                f.write(new)
    return left


def together(names):
    """Names that fall together: with one another, or with a word of a file that has the old name too."""
    back = collections.defaultdict(set)
    for a, b in names.items():
        back[b].add(a)
    for b, olds in sorted(back.items()):
        if len(olds) > 1:
            print("two names become %s: %s" % (b, ", ".join(sorted(olds))))
    for path in list(antt_files()) + sorted(glob.glob("crates/*/src/*.rt")):
        words = set(WORD.findall(uncomment(read(path))))
        for a in sorted(words & set(names)):
            if names[a] in words:
                print("%s: %s meets %s" % (path, a, names[a]))


def main(arguments):
    check = "--check" in arguments
    arguments = [a for a in arguments if a != "--check"]
    names = table()
    if check:
        together(names)
        print(len(names), "names change")
        return 0
    for path in antt_files():
        text = read(path)
        new = turned_text(text, names_in(path, text, names))
        if new != text:
            with open(path, "w", encoding="utf-8") as f:
                f.write(new)
    for path in sorted(glob.glob("crates/*/src/*.rt")):
        text = read(path)
        new = turned_rust(text, names_in(path, text, names))
        if new != text:
            with open(path, "w", encoding="utf-8") as f:
                f.write(new)
    words = learned(arguments[0])
    words.update({a: b for a, b in names.items()})
    for path in edits(arguments[0], words):
        print("left:", path)
    spans = {**{a: b for a, b in words.items() if a != b and len(a) > 2 and a[0].isalpha()}, **names}
    for path in ["README.md"] + sorted(glob.glob("docs/*.md")):
        text = read(path)
        new = re.sub(r"`[^`\n]*`", lambda s: turned(s[0], {a: b for a, b in spans.items() if "-" in a or re.search("[a-z][A-Z]", a)}), text)
        if new != text:
            with open(path, "w", encoding="utf-8") as f:
                f.write(new)
    return 0


if __name__ == "__main__":
    sys.exit(main(sys.argv[1:]))
