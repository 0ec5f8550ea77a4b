"""Documents to measure, and their fonts: virtual fonts, rank over rank, over TFM fonts.

Nothing is drawn by chance: the same call makes the same bytes. vftovp, tftopl and dvitype read them without a complaint.
"""
import os
import struct

DESIGN = 10 << 20       # ten points, as a fix_word
SIZE = 10 << 16         # ten points, in DVI units
CODES = 128
LINE, WORD = 40, 5      # characters
NUM, DEN, MAG = 25400000, 473628672, 1000
PAGE_WIDTH, PAGE_HEIGHT = 0x2000000, 0x3000000


def four(n):
    return struct.pack('>i', n)


def width(code):
    """The fix_word of a character's width: between 0.3 and 0.8 of the size."""
    return (300000 + 4096 * code) & 0xFFFFFF


def tfm(checksum, scale):
    """A TFM file of 128 characters, each `scale` times as wide as `width` says."""
    words = [four(checksum - (1 << 32) if checksum >= 1 << 31 else checksum), four(DESIGN)]
    words += [bytes((code + 1, 0, 0, 0)) for code in range(CODES)]
    words += [four(0)] + [four(width(code) * scale) for code in range(CODES)]
    words += [four(0)] * 3
    words += [four(0)] * 7
    counts = (6 + len(words), 2, 0, CODES - 1, CODES + 1, 1, 1, 1, 0, 0, 0, 7)
    return struct.pack('>12H', *counts) + b''.join(words)


def vf(checksum, below, below_checksum, count, scale):
    """A VF file in which each character is `count` of the same code of the font below."""
    out = bytearray((247, 202, 0)) + four(checksum) + four(DESIGN)
    out += bytes((243, 0)) + four(below_checksum) + four(1 << 20) + four(DESIGN) + bytes((0, len(below))) + below.encode()
    for code in range(CODES):
        packet = bytes([code]) * count
        fix = width(code) * scale
        if len(packet) < 242 and fix < 1 << 24:
            out += bytes((len(packet), code)) + fix.to_bytes(3, 'big')
        else:
            out += bytes((242,)) + four(len(packet)) + four(code) + four(fix)
        out += packet
    out += b'\xf8' * (4 - len(out) % 4)
    return bytes(out)


def vf_file(below, packet):
    """A VF file with one character, of code 65, and this packet."""
    out = bytearray((247, 202, 0)) + four(0) + four(DESIGN)
    out += bytes((243, 0)) + four(0) + four(1 << 20) + four(DESIGN) + bytes((0, len(below))) + below
    out += bytes((242,)) + four(len(packet)) + four(65) + four(0) + packet
    out += b'\xf8' * (4 - len(out) % 4)
    return bytes(out)


def document(pages, glyphs, names, checksums, widths):
    """The document: `widths` is by how much a character moves on, for the right edge of a line."""
    out = bytearray((247, 2)) + four(NUM) + four(DEN) + four(MAG) + bytes((5,)) + b'bench'
    definitions = b''.join(
        bytes((243, number)) + four(checksum) + four(SIZE) + four(SIZE) + bytes((0, len(name))) + name.encode()
        for number, (name, checksum) in enumerate(zip(names, checksums)))
    last = -1
    for page in range(pages):
        place = len(out)
        out += bytes((139,)) + four(page + 1) + four(0) * 9 + four(last)
        last = place
        if page == 0:
            out += definitions
        turn = 0
        for first in range(0, glyphs, LINE):
            # the line's start is kept, as TeX does for a box
            out += bytes((141, 171 + turn % len(names)))
            turn += 1
            for k in range(first, min(first + LINE, glyphs)):
                if k > first and (k - first) % WORD == 0:
                    # a word space: its width is set once a line, and then used
                    out += bytes((147,)) if k - first > WORD else bytes((150,)) + (218453).to_bytes(3, 'big')
                out.append((7 * k + 13 * page) % CODES)
            out += bytes((142,)) + bytes((159,)) + (786432).to_bytes(3, 'big')
        out += bytes((140,))
    post = len(out)
    out += bytes((248,)) + four(last) + four(NUM) + four(DEN) + four(MAG)
    out += four(PAGE_HEIGHT) + four(PAGE_WIDTH) + struct.pack('>HH', 1, pages)
    out += definitions
    out += bytes((249,)) + four(post) + bytes((2,))
    out += b'\xdf' * (7 - (len(out) + 3) % 4)
    return bytes(out)


def make(folder, pages=1000, glyphs=1000, fonts=1, ranks=1, packet=1):
    """Writes the files; answers the words that give the fonts to dviflat."""
    os.makedirs(folder, exist_ok=True)

    def write(name, data):
        with open(os.path.join(folder, name), 'wb') as file:
            file.write(data)

    words = []
    below = []
    for n in range(fonts):
        name, checksum = f'face{n}', 1000 + n
        write(name + '.tfm', tfm(checksum, 1))
        words += ['--tfm', f'{name}={name}.tfm']
        below.append((name, checksum))
    scale = 1
    for rank in range(1, ranks + 1):
        scale *= packet
        # a width is less than 16 sizes
        assert width(CODES - 1) * scale < 1 << 24
        here, given = [], []
        for n in range(fonts):
            name, checksum = f'rank{rank}font{n}', 1000 * (rank + 1) + n
            write(name + '.vf', vf(checksum, *below[n], packet, scale))
            # TeX's programs want a TFM file of every font
            write(name + '.tfm', tfm(checksum, scale))
            given.append(f'{name}={name}.vf')
            here.append((name, checksum))
        words += ['--rank', ','.join(given)]
        below = here
    write('doc.dvi', document(pages, glyphs, [n for n, _ in below], [c for _, c in below], scale))
    write('options', '\n'.join(words).encode() + b'\n')
    return words
