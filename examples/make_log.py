#!/usr/bin/env python3
"""Turns a text file into a log of the desk's form.

usage: make_log.py TEXT LOG

TEXT holds a setup line, then a line for each row; # begins a comment:
  setup POLICY COUNT SLICE [PRIORITY ..]   policy 1 priority, 2 round robin; priorities left out are 0
  TIME TASK AMOUNT
Numbers need only fit their bytes: the replay judges the setup and the rows."""
import struct
import sys

BLOCK_RECORDS, MOST_ROWS = 41, 1024


def block(head):
    """A block of 512 bytes: what it begins with, zero bytes, and the check."""
    body = head.ljust(508, b"\0")
    check = (sum(struct.unpack("<127I", body)) + 1) % 2**32
    return body + struct.pack("<I", check)


def numbers(words, most):
    """The words as numbers from 0 to `most`."""
    for word in words:
        if not (word.isascii() and word.isdigit()) or int(word) > most:
            raise ValueError(f"'{word}' is not a number from 0 to {most}")
    return [int(word) for word in words]


def read_text(lines):
    """The setup, three numbers and the priority bytes, and the rows."""
    setup, rows = None, []
    for place, line in enumerate(lines, 1):
        words = line.split("#")[0].split()
        try:
            if not words:
                continue
            if setup is None:
                if words[0] != "setup" or not 4 <= len(words) <= 36:
                    raise ValueError("the first line is: setup POLICY COUNT SLICE [at most 32 priorities]")
                setup = numbers(words[1:4], 2**32 - 1), bytes(numbers(words[4:], 255))
            elif len(words) != 3:
                raise ValueError("a row is: TIME TASK AMOUNT")
            elif len(rows) == MOST_ROWS:
                raise ValueError(f"a log holds at most {MOST_ROWS} rows")
            else:
                rows.append(numbers(words, 2**32 - 1))
        except ValueError as fault:
            raise ValueError(f"line {place}: {fault}") from None
    if setup is None:
        raise ValueError("there is no setup line")
    return setup, rows


def log_of(setup, rows):
    log = block(struct.pack("<4I", 0, *setup[0]) + setup[1])
    for start in range(0, len(rows), BLOCK_RECORDS):
        part = rows[start : start + BLOCK_RECORDS]
        head = struct.pack("<2I", start // BLOCK_RECORDS + 1, len(part))
        log += block(head + b"".join(struct.pack("<3I", *row) for row in part))
    return log


def main(arguments):
    if len(arguments) != 2 or arguments[0] in ("-h", "--help"):
        print(__doc__, file=sys.stderr)
        return 2
    try:
        with open(arguments[0], encoding="utf-8") as text:
            log = log_of(*read_text(text))
        with open(arguments[1], "wb") as out:
            out.write(log)
    except (OSError, ValueError) as fault:
        print(f"make_log.py: {arguments[0]}: {fault}", file=sys.stderr)
        return 1
    return 0


if __name__ == "__main__":
    sys.exit(main(sys.argv[1:]))
