#!/usr/bin/env python3
"""find.py CASE: runs a case file by rounds, has the library check its own answer, and prints the answer and what the
check says. Exit status: 0 the answer passed, 1 refused, 2 trouble. REZKUNDO_SO names librezkundo.so where the system does
not find it."""
import sys

import rezkundo

PASSED, REFUSED, TROUBLE = 0, 1, 2
STANDARD_OUTPUT = 1
WORDS = {rezkundo.Verdict.LASSO: b'lasso', rezkundo.Verdict.EMPTY: b'empty'}


def find(library, text, out):
    """Prints what comes of a case; the exit status."""
    try:
        found = library.run_rounds(text)
    except rezkundo.Refused as refused:
        out.write(b'refused %d\n' % refused.refusal)
        return REFUSED
    out.write(found.answer)
    try:
        verdict = library.check_answer(text, found.answer)
    except rezkundo.Refused as refused:
        out.write(b'check refused %d\n' % refused.refusal)
        return REFUSED
    if verdict != found.verdict:
        raise RuntimeError('run and check differ')
    out.write(b'check passed %s\n' % WORDS[verdict])
    return PASSED


def main(arguments):
    if len(arguments) != 1:
        raise RuntimeError('usage: find.py CASE')
    with open(arguments[0], 'rb') as file:
        # One byte more than a case may have, so that a longer one is refused and not cut.
        text = file.read(rezkundo.LONGEST_FILE + 1)
    library = rezkundo.Library()
    # Closing it says whether all was written.
    with open(STANDARD_OUTPUT, 'wb', closefd=False) as out:
        return find(library, text, out)


if __name__ == '__main__':
    try:
        status = main(sys.argv[1:])
    except Exception as trouble:  # whatever it is: by Python's own status for it, 1, it would look refused
        print(trouble, file=sys.stderr)
        status = TROUBLE
    sys.exit(status)
