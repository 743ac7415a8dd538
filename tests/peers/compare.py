"""The least horizon of each family and of each example by the library and by depqbf; usage: compare.py EXAMPLES COMMAND..., where COMMAND
is plan.c's program."""
import glob
import os
import subprocess
import sys
import time

from families import FAMILIES, by_chance
from qdimacs import Question, Sheet

TRUE, FALSE = 10, 20
CHANCES = 1000


def library(command, data):
    """The code, and the horizon if it is 0."""
    words = subprocess.run(command, input=data, stdout=subprocess.PIPE, check=True).stdout.split()
    return int(words[0]), int(words[1]) if len(words) > 1 else None


def asked(data, horizon):
    """Whether depqbf says that some schedule of this length works from every start."""
    text = Question(Sheet(data), horizon).text()
    code = subprocess.run(['depqbf'], input=text.encode(), stdout=subprocess.DEVNULL).returncode
    if code not in (TRUE, FALSE):
        sys.exit('depqbf ended with %d' % code)
    return code == TRUE


def peer(data):
    """9, or 0 and the least horizon; the sheets here have starts."""
    for horizon in range(Sheet(data).horizon + 1):
        if asked(data, horizon):
            return 0, horizon
    return 9, None


def timed(question, *arguments):
    begin = time.monotonic()
    return question(*arguments), time.monotonic() - begin


def sheets(examples):
    yield from FAMILIES.items()
    for path in sorted(glob.glob(os.path.join(examples, '*.hex'))):
        yield os.path.basename(path), subprocess.run([os.path.join(examples, 'bytes'), path], stdout=subprocess.PIPE, check=True).stdout


def named(examples, command):
    """A line for each family and example; how many differ."""
    wrong = 0
    print('%-12s %8s %8s %10s %10s' % ('sheet', 'library', 'depqbf', 'seconds', 'seconds'))
    for name, data in sheets(examples):
        (ours, our_time), (theirs, their_time) = timed(library, command, data), timed(peer, data)
        words = ['%d writes' % n if code == 0 else 'code %d' % code for code, n in (ours, theirs)]
        print('%-12s %8s %8s %10.2f %10.2f%s' % (name, *words, our_time, their_time, '' if ours == theirs else '  DIFFERENT'), flush=True)
        wrong += ours != theirs
    return wrong


def chances(command):
    """A line for all sheets by chance, and one for each that differs; how many differ."""
    wrong, lengths = 0, {}
    for seed in range(CHANCES):
        data = by_chance(seed)
        ours, theirs = library(command, data), peer(data)
        lengths[ours] = lengths.get(ours, 0) + 1
        if ours != theirs:
            print('by chance, seed %d: library %s, depqbf %s  DIFFERENT' % (seed, ours, theirs))
            wrong += 1
    parts = ['%d with %d writes' % (times, n) for (code, n), times in sorted(lengths.items(), key=str) if code == 0]
    print('%d sheets by chance: %s, %d without a plan; %d differ' % (CHANCES, ', '.join(parts), lengths.get((9, None), 0), wrong))
    return wrong


def main():
    examples, command = sys.argv[1], sys.argv[2:]
    sys.exit(1 if named(examples, command) + chances(command) else 0)


main()
