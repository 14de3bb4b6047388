"""Whether a program, whose path is the argument, has a table of digit pairs or of digits in it (rule L5). A compiler may lay a table down
in parts and in another order, so it need not stand in one piece: every eight bytes in a row of one are looked for."""
import sys

PAIRS = b"".join(b"%02d" % i for i in range(100))
DIGITS = b"0123456789"
PART = 8


def parts_in(program):
    parts = [table[i : i + PART] for table in (PAIRS, DIGITS) for i in range(len(table) - PART + 1)]
    return [part.decode() for part in parts if part in program]


def main():
    turned = b"".join(PAIRS[i : i + 16] for i in reversed(range(0, len(PAIRS), 16)))  # as a compiler may have it
    for other in PAIRS, turned, DIGITS:
        if not parts_in(b"\0" + other):
            sys.exit("digit_table: a table is not found where there is one")
    with open(sys.argv[1], "rb") as file:
        found = parts_in(file.read())
    if found:
        sys.exit(f"digit_table: {sys.argv[1]} has {len(found)} parts of a table of digits, the first is {found[0]}")


main()
