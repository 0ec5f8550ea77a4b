"""Makes what the program `dviflat` must print: the faces of the files in crates/dviflat/data.

It is worked out from what tftopl says of the TFM files and from the rule of scaling, and not by the program. The names,
files, size and text are those of crates/dviflat/args. It writes crates/dviflat/stdout, wherever it is started from.

    python3 tools/expected.py
"""
import os
import re
import subprocess

DVIFLAT = os.path.join(os.path.dirname(os.path.abspath(__file__)), os.pardir, 'crates', 'dviflat')


def described(file):
    """Check sum, design size and the fix_word of each character's width, as tftopl has them."""
    text = subprocess.run(['tftopl', os.path.join(DVIFLAT, 'data', file)], capture_output=True, text=True, check=True).stdout
    checksum = int(re.search(r'^\(CHECKSUM O ([0-7]+)\)', text, re.M).group(1), 8)
    design = re.search(r'^\(DESIGNSIZE R ([0-9.]+)\)', text, re.M).group(1)
    widths = {}
    pattern = r'^\(CHARACTER (C \S|O [0-7]+)[^\n]*\n   \(CHARWD R (-?[0-9.]+)\)'
    for code, width in re.findall(pattern, text, re.M):
        number = ord(code[2]) if code[0] == 'C' else int(code[2:], 8)
        widths[number] = round(float(width) * 2**20)
    assert len(widths) == len(re.findall(r'^\(CHARACTER ', text, re.M))
    return checksum, design, widths


def scaled(word, size):
    """The size is halved until it is below 2^23; the word's last three bytes are scaled, and its sign set right."""
    z, e = size, 0
    while z >= 2**23:
        z, e = z // 2, e + 1
    first, last = (word >> 24) & 255, word & 0xffffff
    assert first in (0, 255)
    return last * z // 2**(20 - e) - (2**(4 + e) * z if first == 255 else 0)


def face(number, name, file, size, text):
    checksum, design, widths = described(file)
    yield f'face {number}  {name}'
    yield f'  check sum    {checksum} (octal {checksum:o})'
    yield f'  design size  {design} pt'
    yield f'  characters   {len(widths)}'
    yield f'  at size      {size}'
    total = 0
    for code in text.encode():
        shown = chr(code) if 32 < code < 127 else ' '
        if code in widths:
            width = scaled(widths[code], size)
            total += width
        else:
            width = 'none'
        yield f'    {shown}  code {code:>3}  width {width:>11}'
    yield f'  sum          {total}'


def main():
    with open(os.path.join(DVIFLAT, 'args')) as file:
        command, *words = file.read().splitlines()
    assert command == 'faces'
    options = list(zip(words[::2], words[1::2]))
    fonts = [value.split('=', 1) for option, value in options if option == '--tfm']
    size, text = int(dict(options)['--size']), dict(options)['--text']
    faces = ['\n'.join(face(k, name, file, size, text)) for k, (name, file) in enumerate(fonts)]
    with open(os.path.join(DVIFLAT, 'stdout'), 'w') as file:
        file.write('\n\n'.join(faces) + '\n')


main()
