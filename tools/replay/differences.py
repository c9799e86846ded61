"""Where what was printed differs from what must be, told for a person."""

import re

from wire import decode


def difference(steps, wanted, printed):
    """The first line that differs, or nothing."""
    if wanted == printed:
        return None
    expected, given = wanted.splitlines(keepends=True), printed.splitlines(keepends=True)
    at = next((i for i, pair in enumerate(zip(expected, given)) if pair[0] != pair[1]),
              min(len(expected), len(given)))
    left = expected[at] if at < len(expected) else b""
    right = given[at] if at < len(given) else b""
    return (f"line {at + 1} of standard output{place(steps, at)}\n"
            f"  expected {shown(left)}\n"
            f"  printed  {shown(right)}{first_byte(left, right)}")


def place(steps, at):
    """The line of the case that asks for a line of output."""
    for step in steps:
        at -= step.printed.count(b"\n")
        if at < 0:
            return f", below line {step.line} of the case"
    return ""


def shown(line):
    """A line of output, with its PDUs in words below it."""
    text = line.decode("utf-8", "backslashreplace").rstrip("\n") or "nothing"
    words = "".join(f"\n           {pdu}" for pdu in decode.line(text))
    return (text if len(text) <= 400 else f"{text[:400]}.. ({len(text)} characters)") + words


def first_byte(left, right):
    """Which byte of the answers is the first that differs."""
    shape = re.compile(rb"\d+ ((?:[0-9a-f]{2})+)\n")
    left, right = shape.fullmatch(left), shape.fullmatch(right)
    if not left or not right:
        return ""
    pairs = zip(bytes.fromhex(left[1].decode()), bytes.fromhex(right[1].decode()))
    at = next((i for i, (a, b) in enumerate(pairs) if a != b), None)
    return "\n  one is longer" if at is None else f"\n  byte {at} is the first that differs"
