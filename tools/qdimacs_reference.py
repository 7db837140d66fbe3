#!/usr/bin/env python3
"""A second reader of formula texts, to check the table of cases against.

    python3 tools/qdimacs_reference.py crates/formula_cases/data/cases.txt

prints a line for each case whose expected line differs from what this reader says, and then how many
cases there are and how many differ. It follows docs/FORMULA.md and docs/REFUSALS.md part by part (head,
blocks, rows), and shares nothing with the proved reader, which goes word by word.
"""
import re
import sys

MOST_BYTES, MOST_VARIABLES, MOST_ROWS, MOST_BLOCKS, MOST_LITERALS = 65536, 1024, 4096, 64, 16384

WORD = re.compile(rb"[^ \t\r\n]+")
NUMBER = re.compile(rb"0|-?[1-9][0-9]{0,8}")


class Refused(Exception):
    """The number of a refusal and its place."""


class Words:
    """The words of a text, one after another; comments are skipped where a caller says so."""

    def __init__(self, text):
        self.text, self.at = text, 0

    def skip_comments(self):
        while (found := WORD.search(self.text, self.at)) and found.group() == b"c":
            line_end = self.text.find(b"\n", found.end())
            self.at = len(self.text) if line_end < 0 else line_end

    def next(self):
        """The next word and its place; at the end of the text None and the text's length."""
        found = WORD.search(self.text, self.at)
        if found is None:
            return None, len(self.text)
        self.at = found.end()
        if not all(33 <= byte <= 126 for byte in found.group()):
            raise Refused(2, found.start())
        return found.group(), found.start()


def number(word, place):
    """The number that is due, inside a head, a block or a row."""
    if word is None:
        raise Refused(3, place)
    if not NUMBER.fullmatch(word):
        raise Refused(4, place)
    return int(word)


def read_head(words):
    for due in (b"p", b"cnf"):
        word, place = words.next()
        if word != due:
            raise Refused(3, place)
    totals = []
    for most in (MOST_VARIABLES, MOST_ROWS):
        word, place = words.next()
        totals.append(number(word, place))
        if not 0 <= totals[-1] <= most:
            raise Refused(5, place)
    return totals


def read_block(words, n, bound):
    """The variables of a block whose letter is read; they are entered into `bound`."""
    empty = True
    while True:
        word, place = words.next()
        x = number(word, place)
        if x == 0:
            if empty:
                raise Refused(8, place)
            return
        if not 1 <= x <= n:
            raise Refused(6, place)
        if x in bound:
            raise Refused(7, place)
        bound.add(x)
        empty = False


def read_row(words, word, place, n, bound, literals):
    """How many literals there are after a row that begins with this word, with so many before it."""
    named = set()
    while (x := abs(number(word, place))) != 0:
        if x > n:
            raise Refused(6, place)
        if x not in bound:
            raise Refused(9, place)
        if x in named:
            raise Refused(10, place)
        if literals == MOST_LITERALS:
            raise Refused(12, place)
        named.add(x)
        literals += 1
        word, place = words.next()
    return literals


def read(text):
    """The numbers of variables, blocks, rows and literals of an accepted text."""
    if len(text) > MOST_BYTES:
        raise Refused(1, 0)
    words = Words(text)
    words.skip_comments()
    n, m = read_head(words)

    bound, letters = set(), []
    word, place = words.next()
    while word in (b"a", b"e"):
        if letters and letters[-1] == word:
            raise Refused(8, place)
        if len(letters) == MOST_BLOCKS:
            raise Refused(12, place)
        read_block(words, n, bound)
        letters.append(word)
        word, place = words.next()

    rows = literals = 0
    while word is not None:
        if word in (b"a", b"e"):
            raise Refused(3, place)
        number(word, place)
        if rows == m:
            raise Refused(11, place)
        literals = read_row(words, word, place, n, bound, literals)
        rows += 1
        word, place = words.next()
    if rows < m:
        raise Refused(11, place)
    return n, len(letters), rows, literals


def line(text):
    """The line that is printed for a text."""
    try:
        return "read %d %d %d %d" % read(text)
    except Refused as refused:
        return "refused %d %d" % refused.args


ESCAPE = re.compile(rb"\\(?:\{(\d+)\*([^}]*)\}|x([0-9a-f]{2})|(.))")
NAMED = {b"n": b"\n", b"r": b"\r", b"t": b"\t", b"\\": b"\\"}


def decoded(escaped):
    """The bytes of a text column: \\n \\r \\t \\\\ \\xNN, and \\{COUNT*...} for bytes that stand COUNT times."""

    def plain(escape):
        count, repeated, code, name = escape.groups()
        if count:
            return decoded(repeated) * int(count)
        return bytes([int(code, 16)]) if code else NAMED[name]

    return ESCAPE.sub(plain, escaped)


def main(path):
    cases = wrong = 0
    for entry in open(path, "rb").read().split(b"\n"):
        if not entry or entry.startswith(b"#"):
            continue
        name, expected, escaped, _reason = entry.split(b"\t")
        got = line(decoded(escaped))
        cases += 1
        if got != expected.decode():
            wrong += 1
            print("%s: expected %s, got %s" % (name.decode(), expected.decode(), got))
    print("%d cases, %d wrong" % (cases, wrong))


if __name__ == "__main__":
    main(sys.argv[1])
