#!/usr/bin/env python3
"""Lists, for each point of the design pass, the places in src/ that a text search finds: python3 tools/places.py [FOLDER] [-l]"""
import re
import sys
from pathlib import Path

POINTS = [
    ("1 results taken apart and put together again", [
        r"Err\((\w+)\) => (?:return )?Err\(\1\)",
        r"Err\(\w+\) => (?:return )?Err\(Refusal::Fault",
        r"Err\(r\) => return Err\(NotMade",
        r"None => (?:None|0|(?:return )?Err\()",
        r"Some\(_\) => None",
        r"Err\(_\) => (?:None|Err\(|return Err\()",
        r"if let (?:Err|Some)\(\w+\) = [^{]*\{\s*return Err\(",
        r"else \{\s*return (?:Err\(|None;)",
        r"Some\(\w+\) => Some\(",
    ]),
    ("1 refusals, faults and states as flags or numbers", [
        r"-> Option<Refusal>",
        r"-> Result<Result<",
        r"Err\(Refusal::Fault \{",
        r"Refusal::Fault \{\s*cause(?:: [\w:]+)?,\s*links: 0,?\s*\}",
        r"enum Ruled",
        r"\bdefining: bool",
        r"\bon: bool",
        r"-> \(u8, usize\)",
        r"-> u8\n(?:    ensures[^\n]*\n)?\{\n    0\n\}",
        r"number: u8,",
        r"Missing,",
        r"state: io::Result",
    ]),
    ("2 functions that are twins of others by name", [
        r"fn (?:all_unsigned|all_signed|two|four|two_at|four_at|byte_at|number_at|is_fix_word|begins_fix_word|face_named|font_named|part_of|part|kind_of\(word|key_of|command_of\(word|indexes_below|are_fix_words|right\(r|down\(r|new_name)\b",
        r"fn main\(",
    ]),
    ("3 loops", [
        r"\bwhile [^\n]*\{",
        r"\bfor \w+ in [^\n{]*\.\.[^\n{]*\{",
        r"\bfor \([^)]*\) in [^\n{]*enumerate\(\)[^\n{]*\{",
        r"\bfor \([^)]*\) in \w+\.iter\(\) \{\s*if",
    ]),
    ("4 conversions, printing and zero values by hand", [
        r"-> &'static str",
        r"pub fn (?:count|face|refusal|mark|link|scaled)\([^)]*out: &mut Output",
        r"Registers \{\s*h: [^}]*z: 0,",
        r"let none = Local \{",
        r"fn told\(",
    ]),
    ("5 facts and parameters that stand together", [
        r"chain: &mut \[Link\],\s*marks: &mut \[Mark\]",
        r"font: u16,\s*size: u32,\s*code: u8,\s*h: i64,\s*v: i64",
        r"below: &S,\s*body: &B",
        r"record \{ below = S\.means",
        r"negsuc 2147483647",
        r"entries_of self\.\w+\.bytes\.items self\.\w+\.fonts\.items",
        r"RankOk \(",
        r"requires \{ \(?at < length (?:front|file)\.now",
        r"requires \{[^\n]*q < 2 \^ 32",
        r"requires \{[^\n]*Fit file\.now|requires \{ 24 ≤ length file\.now|requires \{ from \+ 4 \* n",
        r"words: &\[&\[u8\]\],\s*(?:heap: Global,\s*)?out: &mut Output",
        r"ghost sound",
    ]),
    ("6 buffers with a length, tables searched by hand", [
        r"\w+: \[\w+(?:<\w+>)?; \w+\],",
        r"static \w+: \[",
        r"named: Vec<Named>",
        r"\[false; \w+\]",
    ]),
    ("7 switches on which step to run", [
        r"match (?:kind_of\(first\)|call|query|key_of\([^)]*\)|command_of\(word\)|command|\(definition, words\)|which|self) \{",
    ]),
]

folder = Path(next((a for a in sys.argv[1:] if not a.startswith("-")), "crates"))
long = "-l" in sys.argv
for name, patterns in POINTS:
    found = []
    for path in sorted(folder.glob("*/src/**/*.rt")):
        text = path.read_text()
        for pattern in patterns:
            for match in re.finditer(pattern, text):
                line = text.count("\n", 0, match.start()) + 1
                found.append((str(path.relative_to(folder)), line, " ".join(match.group(0).split())[:90]))
    found = sorted(set(found))
    print(f"{len(found):4} {name}")
    if long:
        for path, line, text in found:
            print(f"       {path}:{line}: {text}")
