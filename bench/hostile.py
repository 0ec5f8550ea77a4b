"""Documents and fonts that are legal, or nearly, and made to be slow."""
import os
import struct

from documents import DEN, DESIGN, MAG, NUM, SIZE, four, tfm, vf_file

LIMIT = 1 << 24     # a document has no more bytes
FRONT = 15          # the preamble, with no comment
BOP = 45
CLOSING = 29 + 10   # the postamble without definitions, and the ending with some 223s


def definition(number, name=b'face0'):
    """A definition in as few bytes as its number takes."""
    width = max(1, (number.bit_length() + 7) // 8)
    return (bytes((242 + width,)) + number.to_bytes(width, 'big') + four(0) + four(SIZE) + four(SIZE)
            + bytes((0, len(name))) + name)


def bop(number, last):
    return bytes((139,)) + four(number) + four(0) * 9 + four(last)


def closed(body, last, pages, definitions):
    """A document whose pages are in `body`, which begins behind the preamble."""
    out = bytearray((247, 2)) + four(NUM) + four(DEN) + four(MAG) + bytes((0,)) + body
    post = len(out)
    out += bytes((248,)) + four(last) + four(NUM) + four(DEN) + four(MAG) + four(0) + four(0)
    out += struct.pack('>HH', 1, pages) + definitions + bytes((249,)) + four(post) + bytes((2,))
    out += b'\xdf' * (7 - (len(out) + 3) % 4)
    assert len(out) <= LIMIT
    return bytes(out)


def one_page(commands, definitions=definition(0)):
    return closed(bop(1, -1) + commands + bytes((140,)), FRONT, 1, definitions)


def many_definitions(step):
    """One empty page, and as many definitions as there is room for, with numbers `step` apart."""
    room = LIMIT - FRONT - BOP - 1 - CLOSING
    definitions = bytearray()
    number = 0
    while len(definitions) + 23 <= room and number < 1 << 32:
        definitions += definition(number)
        number += step
    return one_page(b'', bytes(definitions))


def selections(count):
    """Half a document of definitions, and a page that selects the last of them so many times."""
    definitions = b''.join(definition(number) for number in range(LIMIT // 2 // 22))
    last = LIMIT // 2 // 22 - 1
    return one_page((bytes((237,)) + last.to_bytes(3, 'big')) * count, definitions)


def many_pages(pages):
    """So many pages with nothing on them."""
    body = bytearray()
    last = -1
    for page in range(pages):
        place = FRONT + len(body)
        body += bop(page + 1, last) + bytes((140,))
        last = place
    return closed(bytes(body), last, pages, b'')


def overlapping(pages):
    """Pages that all end in the same commands: each steps over those behind it by a special."""
    part = BOP + 5
    tail = LIMIT - FRONT - pages * part - CLOSING - 2
    body = bytearray()
    last = -1
    for page in range(pages):
        place = FRONT + len(body)
        body += bop(page + 1, last) + bytes((242,)) + four((pages - page - 1) * part)
        last = place
    body += bytes((138,)) * tail + bytes((140,))
    return closed(bytes(body), last, pages, b'')


def many_marks(count):
    """A page of so many characters at one place: 2 bytes each when they are copied."""
    return one_page(bytes((171,)) + bytes((133, 65)) * count)


def nested(length):
    """A page of one character that comes to nothing: length^3 packets, and no mark. Answers also the VF files."""
    files = []
    below = b'face0'
    for rank in range(1, 5):
        name = f'nest{rank}'
        packet = b'' if rank == 1 else bytes((65,)) * length
        files.append((name, vf_file(below, packet)))
        below = name.encode()
    return one_page(bytes((171, 65)), definition(0, below)), files


def write(folder, data, files=()):
    """Writes a document and its fonts; answers the words that give them to dviflat."""
    os.makedirs(folder, exist_ok=True)
    with open(os.path.join(folder, 'doc.dvi'), 'wb') as file:
        file.write(data)
    with open(os.path.join(folder, 'face0.tfm'), 'wb') as file:
        file.write(tfm(0, 1))
    words = ['--tfm', 'face0=face0.tfm']
    for name, content in files:
        with open(os.path.join(folder, name + '.vf'), 'wb') as file:
            file.write(content)
        # dvicopy wants a TFM file of every font
        with open(os.path.join(folder, name + '.tfm'), 'wb') as file:
            file.write(tfm(0, 0))
        words += ['--rank', f'{name}={name}.vf']
    return words


# What each is, how it is made, and the words behind `flatten DOC -o OUT`.
KINDS = [
    ('16 MB of definitions, numbered from 0', lambda: (many_definitions(1), ()), []),
    ('16 MB of definitions, numbers spread over four bytes', lambda: (many_definitions(6007), ()), []),
    ('8 MB of definitions, the last selected 100 times', lambda: (selections(100), ()), []),
    ('8 MB of definitions, the last selected 1,000 times', lambda: (selections(1000), ()), []),
    ('16,384 pages with nothing on them', lambda: (many_pages(16384), ()), []),
    ('65,535 pages with nothing on them', lambda: (many_pages(65535), ()), []),
    ('1,000 pages that share 16 MB of commands: 1 of them', lambda: (overlapping(1000), ()), ['--pages', '1-1']),
    ('1,000 pages that share 16 MB of commands: 10 of them', lambda: (overlapping(1000), ()), ['--pages', '1-10']),
    ('a page of 8,000,000 characters at one place', lambda: (many_marks(8000000), ()), []),
    ('a character of 100 x 100 x 100 packets without a mark', lambda: nested(100), []),
    ('a character of 200 x 200 x 200 packets without a mark', lambda: nested(200), []),
]
