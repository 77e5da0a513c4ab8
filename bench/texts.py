"""A system with 64 sources, and records, choices and orders of 16,777,216 bytes at most, which are hard for a reader."""

LIMIT = 16_777_216

NAMES = ["a" * 62 + f"{n:02}" for n in range(61)]
LAST = "a" * 62 + "99"

SYSTEM = "\n".join(
    ["(tower wide", "(signal first i32 1)", "(signal big (array 4096 u8) 1)"]
    + [f"(signal {name} i32 1)" for name in NAMES]
    + [f"(signal {LAST} i32 1))"]
)


def lines(line):
    """As many of the line as fit."""
    return line * (LIMIT // len(line))


TEXTS = {
    "signals.record": lambda: lines("sig first 1234567\n"),
    "signals of the last name.record": lambda: lines(f"sig {LAST} 1\n"),
    "values of 4096 numbers.record": lambda: lines("sig big (" + "1 " * 4095 + "1)\n"),
    "ticks.record": lambda: lines("tick 1          \n"),
    "brackets.record": lambda: lines("sig big " + "(" * 31 + "1" + ")" * 31 + "\n"),
    "one bracketed line.record": lambda: "sig big " + "(" * (LIMIT - 8),
    "one line.record": lambda: "a" * LIMIT,
    "blanks.record": lambda: " " * LIMIT,
    "empty lines.record": lambda: "\n" * LIMIT,
    "comments.record": lambda: lines(";\n"),
    "choices.choices": lambda: lines("see 65535 1000000000\n"),
    "one line.choices": lambda: "a" * LIMIT,
    "blanks.choices": lambda: " " * LIMIT,
    "empty lines.choices": lambda: "\n" * LIMIT,
    "comments.choices": lambda: lines(";\n"),
    "arrivals.order": lambda: lines("a\n"),
    "marks.order": lambda: lines("s first\n"),
    "marks of the last name.order": lambda: lines(f"1000000000 s {LAST}\n"),
    "lines passed over.order": lambda: lines("misfit 1\n"),
    "one line.order": lambda: "a" * LIMIT,
    "blanks.order": lambda: " " * LIMIT,
    "empty lines.order": lambda: "\n" * LIMIT,
    "comments.order": lambda: lines(";\n"),
}
