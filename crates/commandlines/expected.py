#!/usr/bin/env python3
"""Works out the file stdout from the listings that vftovp, tftopl, dvitype and dv2dt make, by the rules of docs/FORMATS.md and docs/SHELVES.md.

EXPECTED.md says how it is called and what is added by hand. Nothing here reads VF, TFM or DVI bytes, or calls the program.
"""
import re
import sys
from fractions import Fraction

TWO20 = 1 << 20


def parse(text):
    """A property list as nested lists of words."""
    words = re.findall(r"[()]|[^\s()]+", text)
    stack = [[]]
    for word in words:
        if word == "(":
            stack.append([])
        elif word == ")":
            done = stack.pop()
            stack[-1].append(done)
        else:
            stack[-1].append(word)
    return stack[0]


def real(words):
    """R x: the fix_word that the listing stands for."""
    assert words[0] == "R"
    return round(Fraction(words[1]) * TWO20)


def code(words):
    kind, value = words[0], words[1]
    return ord(value) if kind == "C" else int(value, 8 if kind == "O" else 10)


def scaled(fix, size):
    """A fix_word scaled by a size: docs/FORMATS.md, fix_words."""
    halvings = 0
    while size >= 1 << 23:
        size //= 2
        halvings += 1
    return (fix * size) >> (20 - halvings)


class Face:
    def __init__(self, number, listing):
        self.number = number
        self.widths = {}
        for item in parse(listing):
            if item[0] == "CHARACTER":
                self.widths[code(item[1:3])] = next((real(p[1:]) for p in item if p[0] == "CHARWD"), 0)


class Virtual:
    def __init__(self, listing, shelf):
        self.local = []
        self.characters = {}
        for item in parse(listing):
            if item[0] == "MAPFONT":
                name = next(p[1] for p in item if p[0] == "FONTNAME")
                at = next((real(p[1:]) for p in item if p[0] == "FONTAT"), TWO20)
                self.local.append((shelf[name], at))
            if item[0] == "CHARACTER":
                width = next((real(p[1:]) for p in item if p[0] == "CHARWD"), 0)
                steps = next((p[1:] for p in item if p[0] == "MAP"), [["SETCHAR"] + item[1:3]])
                self.characters[code(item[1:3])] = (width, steps)


class Missing(Exception):
    pass


def run(font, size, char, h, v, marks):
    """The marks of a character, and its width."""
    if isinstance(font, Face):
        if char not in font.widths:
            raise Missing
        marks.append(f"glyph {font.number} {size} {char} {h} {v}")
        return scaled(font.widths[char], size)
    width, steps = font.characters[char]
    local, at = font.local[0]
    at = scaled(at, size)
    saved = []
    x, y = h, v
    for step in steps:
        name = step[0]
        if name == "SETCHAR":
            x += run(local, at, code(step[1:]), x, y, marks)
        elif name == "SETRULE":
            height, wide = scaled(real(step[1:3]), size), scaled(real(step[3:5]), size)
            if height > 0 and wide > 0:
                marks.append(f"rule {height} {wide} {x} {y}")
            x += wide
        elif name == "MOVERIGHT":
            x += scaled(real(step[1:]), size)
        elif name == "MOVELEFT":
            x += scaled(-real(step[1:]), size)
        elif name == "MOVEDOWN":
            y += scaled(real(step[1:]), size)
        elif name == "MOVEUP":
            y += scaled(-real(step[1:]), size)
        elif name == "PUSH":
            saved.append((x, y))
        elif name == "POP":
            x, y = saved.pop()
        elif name == "SELECTFONT":
            local, at = font.local[int(step[2])]
            at = scaled(at, size)
        else:
            assert name in ("SPECIAL", "SPECIALHEX"), step
    return scaled(width, size)


def answer(words, listings):
    """What a command line prints of a character that has marks and a width."""
    shelf = {}
    options = list(zip(words[1::2], words[2::2]))
    for option, value in options:
        if option == "--tfm":
            name, file = value.split("=")
            shelf[name] = Face(len(shelf), open(f"{listings}/{file[:-4]}.pl").read())
    for option, value in options:
        if option == "--rank":
            made = {}
            for part in value.split(","):
                name, file = part.split("=")
                made[name] = Virtual(open(f"{listings}/{file[:-3]}.vpl").read(), shelf)
            shelf.update(made)
    given = dict(options)
    h, v = map(int, given.get("--at", "0,0").split(","))
    marks = []
    try:
        width = run(shelf[given["--font"]], int(given["--size"]), int(given["--code"]), h, v, marks)
        return marks + [f"width {width}", "status 0"]
    except Missing:
        return marks


def paged(words, listings):
    """What a command line prints of a document: page places and counters by dvitype, the rest by dv2dt."""
    stem = f"{listings}/{words[1][:-4]}"
    lines = [line.split() for line in open(f"{stem}.dt")]
    pre = next(line for line in lines if line[0] == "pre")
    post = next(n for n, line in enumerate(lines) if line[0] == "post")
    pages = re.findall(r"(\d+): beginning of page (\S+)", open(f"{stem}.type").read())
    told = [f"pages {lines[post][8]} mag {pre[4]}"]
    for n, (place, counters) in enumerate(pages, 1):
        told.append(f"page {n} {place} {counters.replace('.', ' ')}")
    for line in lines[post + 1 :]:
        if line[0].startswith("fd"):
            number, checksum, size, design, area, name = line[1], line[2], line[3], line[4], line[7], line[8]
            told.append(f"font {number} {size} {design} {int(checksum, 8)} {area[1:-1]}{name[1:-1]}")
    return told + ["status 0"]


def main(commands, listings, by_hand):
    told = {}
    for block in open(by_hand).read().split("\n\n"):
        lines = block.strip("\n").split("\n")
        told[lines[0]] = lines[1:]
    for line in open(commands).read().splitlines():
        print(f"$ dviflat {line}")
        lines = told.get(line)
        if lines is None:
            words = line.split(" ")
            lines = paged(words, listings) if words[0] == "pages" else answer(words, listings)
        elif lines[0] == "...":
            lines = answer(line.split(" "), listings) + lines[1:]
        print("\n".join(lines) + "\n")


main(*sys.argv[1:])
