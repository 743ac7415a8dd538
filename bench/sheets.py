"""Writes the sheets of the benchmark into a folder and prints NAME=FILE for each: sheets.py FOLDER, beside tests/peers/families.py."""
import glob
import os
import subprocess
import sys

HERE = os.path.dirname(os.path.abspath(__file__))
sys.path.insert(0, os.path.join(HERE, '..', 'tests', 'peers'))
from families import FAMILIES, sheet  # noqa: E402

FAMILY = ['sort 4', 'ring 2', 'ring 3', 'square 3', 'square 4', 'cube 3']


def largest():
    """As many of everything as there can be, 432 bytes: twelve writes that set all bits, each by two rules; all bits are off at the start."""
    full = 0xfff
    rules = [(k + 1, 0, 0, full, 0) for k in range(12) for _ in range(2)]
    bits = [1 << k for k in range(12)]
    pairs = [3, 12, 48, 192]
    return sheet(12, 12, rules, [(0, b) for b in bits + pairs], [(b, 0) for b in bits + pairs], 8)


def main():
    folder = sys.argv[1]
    sheets = {name.replace(' ', '-'): FAMILIES[name] for name in FAMILY}
    for path in sorted(glob.glob(os.path.join(HERE, '..', 'examples', '*.hex'))):
        name = os.path.basename(path)[:-4]
        sheets[name] = subprocess.run([os.path.join(HERE, '..', 'examples', 'bytes'), path], stdout=subprocess.PIPE, check=True).stdout
    sheets['largest'] = largest()
    os.makedirs(folder, exist_ok=True)
    for name, data in sheets.items():
        path = os.path.join(folder, name)
        with open(path, 'wb') as f:
            f.write(data)
        print('%s=%s' % (name, path))


main()
