"""A peer of npss_lines: lines.py FORM answers each line of standard input by Python's own tables."""

import sys
import unicodedata


def answer(form, line):
    for at, code in enumerate(line):
        if unicodedata.category(code) == "Cn":
            return f"!unassigned {ord(code):04X} at byte {len(line[:at].encode())}"
    return f"={unicodedata.normalize(form, line)}"


def main():
    form = sys.argv[1].upper()
    sys.stdin.reconfigure(encoding="utf-8", newline="\n")
    sys.stdout.reconfigure(encoding="utf-8", newline="\n")
    for line in sys.stdin:
        sys.stdout.write(answer(form, line.removesuffix("\n")) + "\n")


main()
