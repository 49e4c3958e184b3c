#!/usr/bin/env python3
"""look.py PROGRAM WORDS: a look at a program before it is proved. It is built as `rt try` builds it, without proofs and
with checks in place of them, run once on the words and the files that they name, and thrown away. Its output comes when
it has ended, at most 1 MiB and 60 seconds of it. The status is the program's, and 70 where it didn't come to an end."""
import os
import re
import subprocess
import sys

TOP = os.path.dirname(os.path.dirname(os.path.abspath(__file__)))
# Names that the folder in which the program runs has for itself.
TAKEN = ('program', 'stdin', 'stdout', 'stderr')
ENDED = re.compile(rb'^run=ended status=(\d+) .*\n\Z', re.M)


def offered(word):
    """The word as the program gets it, and the file that it is given under that name, if it names one."""
    file = os.path.abspath(word)
    if not os.path.isfile(file):
        return word, []
    name = os.path.normpath(word)
    if os.path.isabs(name) or name.startswith(('..', *TAKEN)) or '=' in name:
        return file, []
    return word, ['--data', f'{name}={file}']


def main():
    program, *words = sys.argv[1:]
    print(f'{program}: this is a look at a program that is NOT proved: it is built without proofs, for this call alone',
          file=sys.stderr, flush=True)
    given = [offered(it) for it in words]
    data = [it for _, files in given for it in files]
    ran = subprocess.run(['rt', 'try', *data, '--', *(word for word, _ in given)], cwd=os.path.join(TOP, 'crates', program),
                         stderr=subprocess.PIPE)
    ended = ENDED.search(ran.stderr)
    if ended:
        return int(ended[1])
    sys.stderr.buffer.write(ran.stderr)
    print(f"{program}: the look didn't come to an end", file=sys.stderr)
    return 70


if __name__ == '__main__':
    sys.exit(main())
