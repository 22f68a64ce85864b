"""Rescues what a damaged contribution sheet still holds, with the proved library.

    scripts/rescue FILE     writes a good sheet of the entries that could be saved
    scripts/rescue -        the same of a sheet on standard input

Standard output is the rescued sheet, or nothing where the damaged one is refused. Send it to another file than FILE, which the shell would empty first. Standard
error tells in words how many of the entries that the sheet counts were saved, dropped and missing, and how many bytes lay over; then, a line each, the entries
that were dropped: the place, the pattern, and why.

Exit status: 0 where a sheet is written, also where entries were lost, even all of them: the sum of a rescued sheet is that of the saved entries alone;
1 where the damaged one is refused and nowhere else, 2 where something else is wrong, with one line that says what.
Where crates/kewohiata/out/libkewohiata.a is missing, or older than its sources, `rt lib` proves and builds it first.
"""
import os
import struct
import subprocess
import sys

HERE = os.path.dirname(os.path.realpath(__file__))
ROOT = os.path.dirname(HERE)
sys.dont_write_bytecode = True
sys.path[:0] = [HERE, os.path.join(ROOT, "tests")]
import built  # noqa: E402
import command  # noqa: E402
import sum as summing  # noqa: E402
from command import Trouble, say  # noqa: E402

MOST = 1 << 24  # bytes that scripts/rescue.c takes; a good sheet has 32,757 at most
HEAD = struct.Struct("<5Q")  # the code and the report
WHY = {1: "a NaN or infinity", 2: "a magnitude above 2^1000"}


def answered(words, program, sheet):
    """The code, the report, the rescued sheet and the marks."""
    ended = subprocess.run([*words, program], input=struct.pack("<Q", len(sheet)) + sheet, stdout=subprocess.PIPE, check=False)
    if ended.returncode or len(ended.stdout) < HEAD.size:
        raise Trouble(f"target/rescue/rescue ended with status {ended.returncode} and {len(ended.stdout)} bytes")
    code, written, taken, missing, over = HEAD.unpack_from(ended.stdout)
    if len(ended.stdout) != HEAD.size + written + taken:
        raise Trouble(f"target/rescue/rescue wrote {len(ended.stdout)} bytes, and told of {HEAD.size + written + taken}")
    return code, missing, over, ended.stdout[HEAD.size : HEAD.size + written], ended.stdout[HEAD.size + written :]


def counted(n, one, more):
    return f"{n} {one if n == 1 else more}"


def main():
    command.helped(__doc__)
    if len(sys.argv) != 2:
        raise Trouble("say one FILE, or - for standard input; scripts/rescue --help tells more")
    sheet, words = summing.begun(sys.argv[1], command.opened(), MOST + 1), summing.prefix()
    if len(sheet) > MOST:
        raise Trouble(f"more than {MOST} bytes: that is no sheet")
    code, missing, over, saved, marks = answered(words, built.c_program(os.path.join("scripts", "rescue.c"), "rescue"), sheet)
    if code:
        return summing.explain(f"refused {code}\n".encode())
    command.answer(saved)
    kept, count = marks.count(0), counted(len(marks) + missing, "entry", "entries")
    say(f"{kept} of {count} saved, {len(marks) - kept} dropped, {missing} missing; {counted(over, 'byte', 'bytes')} lying over")
    for place, mark in enumerate(marks):
        if mark:
            say(f"dropped the entry at place {place}, {sheet[5 + 8 * place : 13 + 8 * place].hex().upper()}: {WHY[mark]}")
    return 0


if __name__ == "__main__":
    command.run(main)
