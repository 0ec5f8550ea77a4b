"""Makes the script that the program `replays` is run on, and the answers that it must print.

It takes a script of many cases and its expected answers, and keeps the cases whose lines are all of some kinds:
those of KINDS, or those named behind the two files. It writes crates/replays/data/base.script and
crates/replays/stdout, wherever it is started from.

    python3 tools/cut.py ../shared/replay/sample.script ../shared/replay/sample.expected [KIND..]
"""
import os
import sys

KINDS = 'case bytes fill file scale tfm rank add alone count find face character'.split()

REPLAYS = os.path.join(os.path.dirname(os.path.abspath(__file__)), os.pardir, 'crates', 'replays')


def cases_of(path):
    """The lines of each case; a case begins with a line `case NAME`."""
    cases = []
    with open(path, 'rb') as file:
        for line in file:
            if line.startswith(b'case '):
                cases.append([])
            cases[-1].append(line)
    return cases


def main():
    if len(sys.argv) < 3:
        sys.exit(__doc__)
    script, expected = sys.argv[1:3]
    kinds = {kind.encode() for kind in sys.argv[3:] or KINDS}
    calls, answers = cases_of(script), cases_of(expected)
    assert [case[0] for case in calls] == [case[0] for case in answers]
    count = 0
    os.makedirs(os.path.join(REPLAYS, 'data'), exist_ok=True)
    with open(os.path.join(REPLAYS, 'data', 'base.script'), 'wb') as to_script:
        with open(os.path.join(REPLAYS, 'stdout'), 'wb') as to_stdout:
            for case, answer in zip(calls, answers):
                if all(line.split()[0] in kinds for line in case):
                    to_script.writelines(case)
                    to_stdout.writelines(answer)
                    count += 1
    print(count, 'cases')


main()
