#!/usr/bin/env python3
"""Feeds a report program the inputs of a file of cases, and compares what it prints byte for byte.

    report_cases.py CASES COMMAND..      the command reads standard input; tests/vectors/README.md has the form of CASES
"""
import itertools
import re
import subprocess
import sys

REPEATED = re.compile(r"(.*)\+(.)\*([0-9]+)\Z")


def written_out(text):
    """The bytes that a case's text stands for."""
    if text == "-":
        return b""
    repeated = REPEATED.match(text)
    if repeated:
        text = repeated.group(1) + repeated.group(2) * int(repeated.group(3))
    return text.replace("_", " ").replace("\\n", "\n").encode("ascii")


def cases(path):
    """The cases of a file as (name, input, report)."""
    found = []
    with open(path, encoding="ascii") as file:
        for number, line in enumerate(file, 1):
            words = line.split()
            if line.startswith("| ") and found:
                found[-1][2].append(line[2:])
            elif len(words) == 3 and words[0] == "input":
                found.append((words[1], written_out(words[2]), []))
            else:
                raise ValueError(f"{path}:{number} is no line of a case")
    return [(name, data, "".join(lines).encode("ascii")) for name, data, lines in found]


def fault(command, data, report):
    """What is wrong with what a command makes of an input: it has to print the report and to end with 0."""
    done = subprocess.run(command, input=data, stdout=subprocess.PIPE, check=False)
    lines = itertools.zip_longest(done.stdout.splitlines(True), report.splitlines(True))
    for number, (printed, expected) in enumerate(lines, 1):
        if printed != expected:
            return f"line {number} is {printed}, not {expected}"
    return f"the command ends with {done.returncode}" if done.returncode != 0 else None


def main(arguments):
    if len(arguments) < 2:
        print("usage: report_cases.py CASES COMMAND..", file=sys.stderr)
        return 2
    inputs = differences = 0
    for name, data, report in cases(arguments[0]):
        inputs += 1
        wrong = fault(arguments[1:], data, report)
        if wrong:
            print(f"input {name}: {wrong}")
            differences += 1
    print(f"inputs {inputs} differences {differences}")
    return 0 if inputs > 0 and differences == 0 else 1


if __name__ == "__main__":
    sys.exit(main(sys.argv[1:]))
