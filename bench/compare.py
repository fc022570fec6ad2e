#!/usr/bin/env python3
"""Compares a machine's numbers with their limits: compare.py MACHINE LIMITS NUMBERS..

LIMITS is a copy of bench/limits: a line has a name, the number on x86-64 and the one on Arm, or `-` where there is none yet. It is written
again with the numbers of this machine. A file of NUMBERS has a name and a number a line. Fails where a number is above its limit or has
none, and where one is missing of a bench that was measured: the first word of its name.
"""

import sys

COLUMNS = {"x86_64": 0, "aarch64": 1}


class Limits:
    """The lines of a file of limits, those with numbers as a name and its two numbers."""

    def __init__(self, path):
        self.lines, self.allowed = [], None
        for line in open(path):
            words = line.split()
            if line.startswith("allowed"):
                self.allowed = int(words[1].rstrip("%"))
            is_row = words and words[0] not in ("allowed", "#")
            self.lines.append((" ".join(words[:-2]), words[-2:]) if is_row else line)
        if self.allowed is None:
            sys.exit(f"{path} has no line `allowed N%`")

    def rows(self):
        return [line for line in self.lines if isinstance(line, tuple)]

    def text(self):
        shown = lambda name, numbers: f"{name:68} {numbers[0]:>10} {numbers[1]:>10}\n"
        return "".join(shown(*line) if isinstance(line, tuple) else line for line in self.lines)


def measured(files):
    """The numbers, by their names."""
    lines = [line.rsplit(maxsplit=1) for file in files for line in open(file)]
    return {name: int(number) for name, number in lines}


def judged(name, number, held, allowed):
    """What is wrong with a number, and what else is to be said of it."""
    if held == "-":
        return f"without a limit: {name} is {number:,}", None
    held = int(held)
    limit = held + -(-held * allowed // 100)
    if number > limit:
        return f"above its limit: {name} is {number:,}, its limit {limit:,} ({held:,} and {allowed}%)", None
    if 100 * number < (100 - allowed) * held:
        return None, f"can be lowered: {name} is {number:,}, in bench/limits {held:,}"
    return None, None


def compared(limits, numbers, column):
    """What is wrong, and what else is to be said; the limits get the numbers."""
    names = {name for name, _ in limits.rows()}
    limits.lines += [(name, ["-", "-"]) for name in numbers if name not in names]
    benches = {name.split()[0] for name in numbers}
    wrong, said = [], []
    for name, held in limits.rows():
        if name in numbers:
            fault, remark = judged(name, numbers[name], held[column], limits.allowed)
            wrong += [fault] if fault else []
            said += [remark] if remark else []
            held[column] = str(numbers[name])
        elif name.split()[0] in benches:
            wrong.append(f"not measured: {name}")
    return wrong, said


def main():
    machine, path, *files = sys.argv[1:]
    limits, numbers = Limits(path), measured(files)
    wrong, said = compared(limits, numbers, COLUMNS[machine])
    print("".join(line + "\n" for line in said + wrong), end="")
    print(f"{machine}: {len(numbers)} numbers, {len(wrong)} wrong, {len(said)} can be lowered")
    with open(path, "w") as out:
        out.write(limits.text())
    sys.exit(len(wrong) > 0)


if __name__ == "__main__":
    main()
