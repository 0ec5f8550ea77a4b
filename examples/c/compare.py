# Runs the C example on each `marks` and `flatten` line of crates/commandlines/data/commands, and compares what it prints with
# the block of crates/commandlines/stdout for that line: counts, marks, pages and lengths.
import os
import subprocess
import sys

program, folder, made = sys.argv[1:]
blocks = {}
for block in open(os.path.join(folder, "stdout"), encoding="latin-1").read().split("\n$ "):
    line, _, text = block.removeprefix("$ ").partition("\n")
    blocks[line.removeprefix("dviflat ")] = text.strip().split("\n")

tried = failed = 0
for line in open(os.path.join(folder, "data", "commands")):
    line = line.strip()
    words = line.split()
    wanted = blocks.get(line)
    if words[:1] not in (["marks"], ["flatten"]) or wanted is None or "--pages" in words or wanted[-1] != "status 0":
        continue
    if words[0] == "flatten":
        words.remove("--check")
        at = words.index("-o")
        del words[at:at + 2]
        words.insert(2, os.path.join(made, "flat.dvi"))
        keep = ("pages ", "bytes in ", "bytes out ")
    else:
        keep = ("counts ", "glyph ", "rule ")
    ran = subprocess.run([program] + words, cwd=os.path.join(folder, "data"), capture_output=True, text=True)
    wanted = [text for text in wanted if text.startswith(keep)]
    tried += 1
    if ran.returncode != 0 or ran.stdout.strip().split("\n") != wanted or not wanted:
        failed += 1
        print("differs:", line, file=sys.stderr)
        print(ran.stdout[:400], ran.stderr, file=sys.stderr)
    elif words[0] == "flatten":
        print(f"{words[1]}: flat, {os.path.getsize(words[2])} bytes")
    else:
        print(f"{words[1]} page {words[2]}: {len(wanted) - 1} marks")
print(f"{tried} compared, {failed} differ")
sys.exit(1 if failed or tried == 0 else 0)
