"""Grades a sum that somebody claims of a contribution sheet, with the proved library.

    scripts/grade FILE CLAIM     prints the claim's grade, or one line with the refusal
    scripts/grade - CLAIM        the same with the sheet on standard input

A claim is a number as tools/sheet takes it: decimal, in as many digits as the double needs (1.1735e-05), hexadecimal, or pattern:3EE89C2E1E7662B3.
The line is `grade exact`, `grade nearest`, `grade faithful` or `grade wrong`; or `refused 3 at 1`, as scripts/sum prints it. Standard error has what that means.

Exit status: 0 where a grade is printed, whichever it is, 1 where the sheet or the claim is refused and nowhere else, 2 where something else is wrong, with one
line that says what. Where crates/kewohiata/out/libkewohiata.a is missing, or older than its sources, `rt lib` proves and builds it first.
"""
import importlib.machinery
import importlib.util
import os
import struct
import subprocess
import sys

HERE = os.path.dirname(os.path.realpath(__file__))
ROOT = os.path.dirname(HERE)
sys.dont_write_bytecode = True
sys.path[:0] = [HERE, os.path.join(ROOT, "tests")]
import built  # noqa: E402
import command  # noqa: E402
import sum as summing  # noqa: E402
from command import Trouble, say  # noqa: E402

GRADES = {
    "exact": "the claim is the exact sum",
    "nearest": "the exact sum is no double, and the claim is the double nearest to it",
    "faithful": "the exact sum is no double, and the claim is the farther of the two around it, or at a tie the odd one",
    "wrong": "another double lies between the claim and the exact sum, or is that sum",
}


def pattern_of(claim):
    """The pattern of a number as tools/sheet reads it."""
    loader = importlib.machinery.SourceFileLoader("sheet_tool", os.path.join(ROOT, "tools", "sheet"))
    tool = importlib.util.module_from_spec(importlib.util.spec_from_loader("sheet_tool", loader))
    loader.exec_module(tool)
    try:
        return tool.pattern_of(claim)
    except tool.Trouble as error:
        raise Trouble(error) from error


def answered(words, program, pattern, sheet):
    """The code and the grade."""
    asked = struct.pack("<2Q", pattern, len(sheet)) + sheet
    ended = subprocess.run([*words, program], input=asked, stdout=subprocess.PIPE, check=False)
    if ended.returncode or len(ended.stdout) != 16:
        raise Trouble(f"target/grade/grade ended with status {ended.returncode} and {len(ended.stdout)} bytes")
    return struct.unpack("<2Q", ended.stdout)


def main():
    command.helped(__doc__)
    if len(sys.argv) != 3:
        raise Trouble("say one FILE, or - for standard input, and one CLAIM; scripts/grade --help tells more")
    closed = command.opened()
    pattern, sheet, words = pattern_of(sys.argv[2]), summing.begun(sys.argv[1], closed), summing.prefix()
    program = built.c_program(os.path.join("scripts", "grade.c"), "grade")
    code, grade = answered(words, program, pattern, sheet)
    if code:
        place = f" at {code // 32 - 1}" if code >= 32 else ""
        line = f"refused {code % 32}{place}\n".encode()
        command.answer(line)
        return summing.explain(line)
    name = list(GRADES)[grade]
    command.answer(f"grade {name}\n".encode())
    say(f"{name}: {GRADES[name]}")
    return 0


if __name__ == "__main__":
    command.run(main)
