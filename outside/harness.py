#!/usr/bin/env python3
"""The proved library from Python.

usage: harness.py SHARED_OBJECT NEW OLD
       harness.py SHARED_OBJECT --compatible NEW OTHER
       harness.py SHARED_OBJECT --check

Prints the line for two files. The exit status is that of bin/verdict: 0 for yes, 1 for no, and 2 for a refusal and for every failure, which is
said in one line on standard error. A Python that cannot even start ends with 1 as well: a no is status 1 and the line. With --check it asks for the
rows of document 01's two tables, and for R and what faces it: 0 if all are right, and 2 otherwise."""

import os
import sys


def give_up(_kind, failure, _trace):
    """Ends with status 2 and one line, if it can be written. Python by itself would end with 1, which says no."""
    try:
        said = " ".join(str(failure).split()) or type(failure).__name__
        os.write(2, f"harness.py: {said}\n".encode(errors="backslashreplace"))
    finally:
        os._exit(2)


if __name__ == "__main__":
    sys.excepthook = give_up

import ctypes
import re

TEXT_BYTES = 4096
TEXT_NODES = 64
DUAL_NODES = 128

NUMBER = "(0|[1-9][0-9]*)"
LINE = re.compile(f"(yes {NUMBER}|no( {NUMBER}){{5,}}|refused( {NUMBER}){{3}})\n")
STATUS = {"yes": 0, "no": 1, "refused": 2}


class Dzaghvori:
    """The functions of include/dzaghvori.h that lend their own areas, over bytes."""

    def __init__(self, shared_object):
        library = ctypes.CDLL(shared_object)
        size = ctypes.c_size_t
        for ask in (library.dzaghvori_verdict_own, library.dzaghvori_compatible_own):
            ask.argtypes = [ctypes.c_char_p, size, ctypes.c_char_p, size, ctypes.c_char_p, size, ctypes.POINTER(size)]
            ask.restype = size
        self.library = library

    def verdict(self, new, old):
        """The printed line: whether the new text may replace the old one."""
        return self._line(self.library.dzaghvori_verdict_own, new, old, TEXT_NODES)

    def compatible(self, new, other):
        """The printed line: whether the new text is compatible with the other one."""
        return self._line(self.library.dzaghvori_compatible_own, new, other, DUAL_NODES)

    @staticmethod
    def _line(ask, first, second, second_nodes):
        line = ctypes.create_string_buffer(6 * TEXT_NODES * second_nodes + 18)
        area = ctypes.c_size_t()
        length = ask(first, len(first), second, len(second), line, len(line), ctypes.byref(area))
        if area.value != 0:
            raise ValueError(f"area {area.value} is too short")
        return line.raw[:length].decode("ascii")


R = b"R = +{sum: ![string]; &{ok: ?(float); R | bad: R} | stop: end} ."
N = b"N = +{sum: ![string]; &{ok: ?(float); N | late: N} | stop: end} ."
M = b"M = +{sum: ![string]; &{ok: ?(float); M} | stop: end | reset: M} ."
P = b"P = ![+{a: end}]; end ."
Q = b"Q = ![+{a: end | b: end}]; end ."

# "New, old", and the line
VERDICTS = [
    (R, R, "yes 5"),
    (N, R, "no 23 1 2 2 0 0 4"),
    (M, R, "yes 5"),
    (R, M, "no 23 2 0 0 0"),
    (P, Q, "yes 4"),
    (Q, P, "no 23 1 1 1 1 0"),
    (b"A = end .", b"B = ?(); end .", "no 20 0 0 0 0"),
    (b"A = ?(); end .", b"B = ?(void); end .", "no 21 0 0 0 0"),
    (b"A = ?(string); end .", b"B = ?(float); end .", "no 22 0 0 0 0"),
    (b"A = ?(string); A .", b"B = ?(string); ?(string); B .", "yes 2"),
]

# a text, its refusal and the place
REFUSED = [
    (b"", 2, 0),
    (b"A = end", 2, 7),
    (b"A = +{} .", 2, 6),
    (b"A = ![string) .", 2, 12),
    (b"A = A .", 9, 0),
    (b"A = B .", 8, 4),
    (b"A = end . A = end .", 7, 10),
    (b"A = +{m: end | m: end} .", 6, 15),
]

# R with every direction turned
FACING_R = b"U = &{sum: ?(string); +{ok: ![float]; U | bad: U} | stop: end} ."


def check(library):
    """Whether every row gets its line."""
    rows = [(library.verdict, new, old, line) for new, old, line in VERDICTS]
    for text, number, place in REFUSED:
        for ask in (library.verdict, library.compatible):
            rows.append((ask, text, R, f"refused {number} 1 {place}"))
            rows.append((ask, R, text, f"refused {number} 2 {place}"))
    rows.append((library.compatible, R, FACING_R, "yes 5"))
    rows.append((library.compatible, N, FACING_R, "no 23 1 2 2 0 0 4"))
    wrong = [row for row in rows if row[0](row[1], row[2]) != row[3] + "\n"]
    for _, first, second, line in wrong:
        print(f"harness.py: not '{line}' for {first} and {second}")
    print(f"harness.py: {len(rows)} rows, {len(wrong)} wrong")
    return not wrong


def read(name):
    """The bytes of a file that count: a text of more than 4,096 is refused, whatever comes behind them."""
    try:
        with open(name, "rb") as file:
            return file.read(TEXT_BYTES + 1)
    except OSError as failure:
        raise OSError(f"cannot read {name}: {failure.strerror}") from failure


def write(line):
    """Prints the whole line, or fails here and not when Python ends."""
    if sys.stdout is None:
        raise OSError("cannot write to standard output")
    rest = line.encode("ascii")
    try:
        while rest:
            rest = rest[os.write(1, rest) :]
    except OSError as failure:
        raise OSError("cannot write to standard output") from failure


def main(arguments):
    """The exit status."""
    compatible = arguments[1:2] == ["--compatible"]
    files = arguments[2:] if compatible else arguments[1:]
    if arguments[1:] == ["--check"]:
        return 0 if check(Dzaghvori(arguments[0])) else 2
    if len(files) != 2:
        raise ValueError("usage: harness.py SHARED_OBJECT [--compatible] NEW OLD, or SHARED_OBJECT --check")
    first, second = [read(name) for name in files]
    library = Dzaghvori(arguments[0])
    line = (library.compatible if compatible else library.verdict)(first, second)
    if not LINE.fullmatch(line):
        raise ValueError("the library gave no line of a known form")
    write(line)
    return STATUS[line.split()[0]]


if __name__ == "__main__":
    sys.exit(main(sys.argv[1:]))
