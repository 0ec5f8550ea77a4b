# The expected output for marks and flatten: marks as dvitype reports them for the same document flattened by dvicopy, and
# the length of the flat file by the rules of docs/FORMATS.md, written out here once more. See EXPECTED.md.
import re
import struct
import sys


# The marks of each page of a flat document, from dvitype's listing.
def pages_in(listing, faces):
    fonts, pages = {}, []
    marks, font, h, v = None, None, 0, 0
    for line in open(listing, errors="replace"):
        if m := re.match(r"Font (\d+): (\S+?)(?: scaled \d+)?---loaded at size (\d+) DVI units", line):
            fonts[int(m[1])] = (faces.index(m[2]), int(m[3]))
        elif re.match(r"\d+: beginning of page", line):
            marks, font, h, v = [], None, 0, 0
            pages.append(marks)
        elif m := re.match(r"level \d+:\(h=(-?\d+),v=(-?\d+),", line):
            h, v = int(m[1]), int(m[2])
        elif marks is not None and (m := re.match(r"\d+: (\w+?)(\d*) (.*)$", line)):
            op, n, rest = m[1], m[2], m[3]
            if op == "fntnum":
                font = int(n)
            elif op in ("setchar", "set", "put"):
                code = int(n) if op == "setchar" else int(rest.split()[0])
                marks.append(("glyph", *fonts[font], code, h, v))
            elif op in ("setrule", "putrule"):
                a, b = map(int, re.match(r"height (-?\d+), width (-?\d+)", rest).groups())
                if a > 0 and b > 0:
                    marks.append(("rule", a, b, h, v))
                if op == "setrule":
                    h += b
            if m := re.search(r"(?<!\w)h:=(-?\d+)[+-]\d+=(-?\d+)", rest):
                assert int(m[1]) == h
                h = int(m[2])
            if m := re.search(r"(?<!\w)v:=(-?\d+)[+-]\d+=(-?\d+)", rest):
                assert int(m[1]) == v
                v = int(m[2])
    return pages


# The places of a document's pages, by their pointers.
def places_in(document):
    end = document.rstrip(b"\xdf")
    q = struct.unpack(">i", end[-5:-1])[0]
    place, places = struct.unpack(">i", document[q + 1 : q + 5])[0], []
    while place != -1:
        places.insert(0, place)
        place = struct.unpack(">i", document[place + 41 : place + 45])[0]
    return places


# A move in its shortest form, by the first command of its group.
def move(first, z):
    if z == 0:
        return b""
    width = next(w for w in (1, 2, 3, 4) if -(1 << 8 * w - 1) <= z < 1 << 8 * w - 1)
    return bytes([first + width - 1]) + z.to_bytes(width, "big", signed=True)


# The definition of a pair of this number.
def definition(n, pair, faces, folder):
    name = faces[pair[0]]
    tfm = open(f"{folder}/{name}.tfm", "rb").read()
    check_sum, design = tfm[24:28], int.from_bytes(tfm[28:32], "big")
    return bytes([243, n]) + check_sum + struct.pack(">II", pair[1], design // 16) + bytes([0, len(name)]) + name.encode()


# How long the flat file is, and how many pairs it has.
def flat(pages, faces, folder):
    out, pairs = 15, []
    for marks in pages:
        out, x, y, selected = out + 45, 0, 0, None
        for mark in marks:
            h, v = mark[-2:]
            out += len(move(143, h - x)) + len(move(157, v - y))
            x, y = h, v
            if mark[0] == "rule":
                out += 9
                continue
            pair = mark[1:3]
            if pair not in pairs:
                out += len(definition(len(pairs), pair, faces, folder))
                pairs.append(pair)
            if selected != pair:
                out, selected = out + 1, pair
            out += 2
        out += 1
    out += 29 + sum(len(definition(n, p, faces, folder)) for n, p in enumerate(pairs)) + 6
    return out + 7 - (out + 3) % 4, len(pairs)


def main(commands, folder):
    for line in open(commands):
        words = line.split()
        if words[0] not in ("marks", "flatten"):
            continue
        document = open(f"{folder}/{words[1]}", "rb").read()
        faces = [words[i + 1].split("=")[0] for i, w in enumerate(words) if w == "--tfm"]
        pages, places = pages_in(f"{folder}/{words[1]}.type", faces), places_in(document)
        print("$ dviflat", line.strip())
        if words[0] == "marks":
            n = int(words[2]) - 1
            print("counts", *struct.unpack(">10i", document[places[n] + 1 : places[n] + 41]))
            for mark in pages[n]:
                print(*mark)
        else:
            if "--pages" in words:
                first, last = map(int, words[words.index("--pages") + 1].split("-"))
                pages = pages[first - 1 : last]
            length, pairs = flat(pages, faces, folder)
            print("pages", len(pages))
            print("marks", sum(map(len, pages)))
            print("pairs", pairs)
            print("bytes in", len(document))
            print("bytes out", length)
            if "--check" in words:
                print("checked: the same marks and counts over the faces alone, the same bytes when copied again")
        print("status 0\n")


main(*sys.argv[1:])
