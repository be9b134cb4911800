#!/usr/bin/env python3
"""Respells this repository's own definitions, fields and lemmas, once, after the toolchain's `port.py` and before any edit by hand.

usage: python3 tools/respell.py [--plan]     at the top of the checkout; --plan prints the names and writes nothing

What is made (a word: a number, a truth, a list) is in snake case, what is claimed (a type, a record) in camel case, a field of a record in
snake case. A lemma keeps its hyphens between what it speaks of, and each word in it has the word's new spelling; one that is called
after the source's `lemma_..` is spelled as the source spells it. Functions, their parameters and generated names stay.
"""

import os
import re
import sys

NAME = r"[^\s(){}\[\];,.:◌∷≡→λ×∣]"
DEFINED = re.compile(r"((?:(?:abbrev|unfoldable|pub|record|data)\s+)*)(" + NAME + r"+)\s*((?:[({].*?)?):\s", re.S)
USE = re.compile(r"(?:ghost )?use (Rattle(?:\.\w+)+)\.\{(.*?)\}", re.S)
# What the toolchain names and a proof file only answers.
GENERATED = re.compile(r"(invariant|decreases|loop)-")
KEYWORDS = {"use", "mod", "open", "where", "in"}


def files(root, ends):
    for folder, dirs, names in os.walk(os.path.join(root, "crates")):
        dirs[:] = sorted(d for d in dirs if d != "out")
        for n in sorted(names):
            if n.endswith(ends):
                yield os.path.relpath(os.path.join(folder, n), root)


def module(path):
    _, crate, part, *rest = path[: -len(".antt")].split("/")
    return ".".join(["Rattle", crate, part, *rest])


def camel(name):
    return "".join(w[:1].upper() + w[1:] for w in re.split("[-_]", name))


def definitions(text):
    """Yields (kind, name, body) of what a file defines: kind is type, word or lemma."""
    for block in re.split(r"(?m)^(?=\S)", re.sub(r"(?m)--.*$", "", text)):
        m = DEFINED.match(block)
        if not m or m[2] in KEYWORDS:
            continue
        words, name = m[1].split(), m[2]
        result = " ".join(block[m.start(3) :].split()).rsplit("→", 1)[-1].rsplit(":", 1)[-1].strip()
        if "record" in words or "data" in words:
            yield "type", name, block.partition(" where")[2] if "record" in words else ""
        elif re.fullmatch(r"Type \S+", result):
            yield "type", name, ""
        else:
            yield ("word" if "abbrev" in words or "unfoldable" in words else "lemma"), name, ""


def plan(root):
    """Tokens that mean one thing everywhere, and (module, name) of types."""
    words, fields, lemmas, types = set(), set(), set(), {}
    for p in files(root, ".antt"):
        with open(os.path.join(root, p), encoding="utf-8") as f:
            text = f.read()
        for kind, name, body in definitions(text):
            if kind == "type" and not name[0].isupper():
                types[module(p), name] = camel(name)
            elif kind == "word" and "-" in name and not GENERATED.match(name):
                words.add(name)
            elif kind == "lemma" and "-" in name and not GENERATED.match(name):
                lemmas.add(name)
            for line in body.split("\n"):
                m = re.match(r"  (?:pub )?(" + NAME + r"+) :", line)
                if m and "-" in m[1]:
                    fields.add(m[1])
    tokens = {n: n.replace("-", "_") for n in words | fields}
    for name in lemmas - words - fields:
        new = name.replace("-", "_") if name.startswith("lemma-") else inner(name, words)
        if new != name:
            tokens[name] = new
    return tokens, types


def inner(name, words):
    """The lemma's name with each word in it respelled, the longest first."""
    parts, out, i = name.split("-"), [], 0
    while i < len(parts):
        n = next((n for n in range(len(parts) - i, 1, -1) if "-".join(parts[i : i + n]) in words), 1)
        out.append("_".join(parts[i : i + n]))
        i += n
    return "-".join(out)


def replace(text, old, new, dotted=True):
    before = r"(?<![\w'◌-])" if dotted else r"(?<![\w'◌.-])"
    return re.sub(before + re.escape(old) + r"(?![\w'◌-])", new, text)


def respell(path, text, tokens, types):
    here = module(path) if path.endswith(".antt") else ""
    for (where, name), new in types.items():
        imported = any(m[1] == where and name in re.split(r"[\s,]+", m[2]) for m in USE.finditer(text))
        text = re.sub(re.escape(where + "." + name) + r"(?![\w'-])", where + "." + new, text)
        if imported or where == here:
            code = "\n".join(replace_in_line(l, name, new, where) for l in text.split("\n"))
            text = code
    for m in sorted(set(re.findall(r"[\w']+(?:-[\w']+)+", text)), key=len, reverse=True):
        if m in tokens:
            text = replace(text, m, tokens[m])
    return text


def replace_in_line(line, name, new, where):
    """A type's name in code; in a comment only where it is in quotes or has a hyphen. A line that imports names from elsewhere stays."""
    m = re.match(r"(?:ghost )?use (Rattle(?:\.\w+)+)", line)
    if m and m[1] != where:
        return line
    code, dashes, comment = line.partition("--")
    code = replace(code, name, new, dotted=False)
    comment = replace(comment, name, new) if "-" in name else comment.replace("`" + name + "`", "`" + new + "`")
    return code + dashes + comment


def clashes(path, old, new, tokens, types):
    """New spellings that a file had before: they may fall together."""
    made = set(tokens.values()) | set(types.values())
    for name in sorted(made):
        if re.search(r"(?<![\w'◌.-])" + re.escape(name) + r"(?![\w'◌-])", old) and old != new:
            yield f"look: {path}: had '{name}' before"


def main(argv):
    root = "."
    tokens, types = plan(root)
    if argv == ["--plan"]:
        for old, new in sorted(tokens.items()):
            print(f"{old} -> {new}")
        for (where, old), new in sorted(types.items()):
            print(f"{where}.{old} -> {new}")
        return 0
    for p in files(root, (".antt", ".rt")):
        with open(os.path.join(root, p), encoding="utf-8") as f:
            old = f.read()
        new = respell(p, old, tokens, types)
        for line in clashes(p, old, new, tokens, types):
            print(line)
        if new != old:
            with open(os.path.join(root, p), "w", encoding="utf-8") as f:
                f.write(new)
    return 0


if __name__ == "__main__":
    raise SystemExit(main(sys.argv[1:]))
