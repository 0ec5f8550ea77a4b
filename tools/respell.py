#!/usr/bin/env python3
"""Spells the repository's own antt names as Rattle's guides ask: words in snake case, facts and types in camel case.

usage: python3 tools/respell.py   at the top of the repository, once, after the kit's port.py.

A name is respelled in specs/, proofs/, the edits and the clauses of src/, everywhere alike:
  a lower camel word becomes snake case, as atEnd -> at_end;
  a statement with dashes becomes camel case, as Worked-values -> WorkedValues;
  a dash stays between two names, as in paste-number, and else becomes an underscore, as low-bytes -> low_bytes;
  a lemma that would then have its function's name gets _lem.
Names that Rattle makes from the code (goals, steps of a proof) keep their spelling. Prints names that fall together in a file.
"""
import os
import re
import sys

TOKEN = re.compile(r"(?<![\w'\-\u00b7])[A-Za-z_][\w'\-]*")
HEAD = re.compile(r"[ ]*(?:(?:abbrev|opaque|unfoldable|pub|instance)\s+)*(?:(record|data|ruleset)\s+)?([^\s:(){},.=|]+)(?:\s+[^=:]*?)?\s*:(?:\s|$)(.*)")
CAMEL = re.compile(r"[a-z][a-z0-9]*[A-Z]")
# names of std that lemmas here are named after
# lemmas that stand beside a definition which comes to their name
BESIDE = {"in_all": "in_all_lem", "within_by": "within_by_lem"}
STD = set("append add take drop map length push and false true cond paste list_all list_any filter all sub mul set get get_or zero suc not more told blank".split())


def files(root, *kinds):
    for folder, dirs, names in os.walk(os.path.join(root, "crates")):
        dirs[:] = sorted(d for d in dirs if d != "out")
        for name in sorted(names):
            if name.endswith(kinds):
                yield os.path.join(folder, name)


def read(path):
    with open(path, encoding="utf-8") as f:
        return f.read()


def snake(word):
    """at the level of one dashed part"""
    if CAMEL.match(word):
        word = re.sub(r"(?<=[a-z0-9])([A-Z])", r"_\1", word).lower()
    return word


def own_names(root):
    """The definitions, lemmas and fields of specs/ and proofs/, but for the answers to goals."""
    own = set()
    for path in files(root, ".antt"):
        answers = os.path.basename(path) in ("Answers.antt", "Invariants.antt", "Proof.antt")
        for line in read(path).split("\n"):
            m = HEAD.match(line)
            if m and not (answers and m[3].startswith("goal.")) and not line.lstrip().startswith(("use ", "let ", "--", "mod ", "pub mod ")):
                own.add(m[2])
    return own


def table(root):
    own = own_names(root)
    parts = {snake(n) for n in own if "-" not in n} | STD
    turned = {}
    for n in sorted(own):
        if n[0].isupper() and "-" in n:
            turned[n] = "".join(p[:1].upper() + p[1:] for p in n.split("-"))
        elif "-" in n and re.match(r"[a-z]", n):
            words = [snake(p) for p in n.split("-")]
            new = words[0]
            last = words[0]
            for w in words[1:]:
                new += ("-" if last in parts and w in parts else "_") + w
                last = w
            turned[n] = new
        elif CAMEL.match(n):
            turned[n] = snake(n)
    turned |= BESIDE
    plain = {turned.get(n, n) for n in own if "-" not in n}
    for n, new in list(turned.items()):
        if "-" in n and new in plain:
            turned[n] = new + "_lem"
    return turned


def respelled(token, turned):
    if token in turned:
        return turned[token]
    if "-" in token:
        return token
    return snake(token)


def ghost_spans(text):
    """The parts of a .rt file that are ghost: imports, ghost items and clauses."""
    for m in re.finditer(r"\bghost\s+use\b[^;]*;", text):
        yield m.span()
    for m in re.finditer(r"\b(?:requires|ensures|ghost)\b[^{;()]*\{", text):
        depth, i = 1, m.end()
        while depth and i < len(text):
            depth += (text[i] == "{") - (text[i] == "}")
            i += 1
        yield m.start(), i


def turn(text, turned, pairs):
    def one(m):
        new = respelled(m[0], turned)
        pairs.setdefault(new, set()).add(m[0])
        return new

    return TOKEN.sub(one, text)


def main():
    root = "."
    turned = table(root)
    changed = 0
    for path in files(root, ".antt", ".rt", ".edit"):
        text, pairs = read(path), {}
        if path.endswith(".antt"):
            new = "\n".join(turn(code, turned, pairs) + rest for code, rest in (re.match(r"(.*?)((?:--.*)?)$", line).groups() for line in text.split("\n")))
        elif path.endswith(".edit"):
            new = turn(text, turned, pairs) if "file: specs/" in text else text
        else:
            new, at = "", 0
            for start, end in sorted(ghost_spans(text)):
                if start < at:
                    continue
                new += text[at:start] + turn(text[start:end], turned, pairs)
                at = end
            new += text[at:]
        for name, old in pairs.items():
            if len(old) > 1:
                print(f"together: {path}: {' '.join(sorted(old))} -> {name}")
        if new != text:
            with open(path, "w", encoding="utf-8") as f:
                f.write(new)
            changed += 1
    print(f"respell: {len(turned)} names, {changed} files")
    if "--table" in sys.argv:
        for old, new in sorted(turned.items()):
            print(old, new)


main()
