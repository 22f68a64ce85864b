"""Sums one contribution sheet with the proved program.

    scripts/sum FILE     prints the count, the faithful sum with its rounds and the nearest sum, or one line with the refusal
    scripts/sum -        the same of standard input

Standard output is the program's own, byte for byte. Standard error has what that means: the sums in decimal, in the fewest digits that read back as the same
double, or the refusal in words (docs/REFUSALS.md has them all).

Exit status: 0 where sums are printed, 1 where the sheet is refused and nowhere else, 2 where something else is wrong, with one line that says what.
Where crates/sum_sheet/out/sum_sheet is missing, or older than its sources, `rt run` builds it first, which proves it and everything below it.
"""
import os
import re
import struct
import subprocess
import sys

ROOT = os.path.dirname(os.path.dirname(os.path.realpath(__file__)))
sys.dont_write_bytecode = True
sys.path.insert(0, os.path.join(ROOT, "tests"))
import built  # noqa: E402
import command  # noqa: E402
import kit  # noqa: E402
from command import Trouble, say  # noqa: E402

TOLD = 10  # which scripts/sum makes the status 1 of
BUFFER = 32758  # the program reads no more: a longer sheet is judged by its beginning
SUMS = re.compile(rb"count \d+\nfaithful ([0-9A-F]{16}) rounds \d+\nnearest ([0-9A-F]{16})\n")
REFUSED = re.compile(rb"refused (\d+)(?: at (\d+))?\n")


def begun(name, closed, most=BUFFER):
    """The bytes of a sheet, no more than so many; those of standard input where the name is -."""
    if name == "-" and 0 in closed:
        raise Trouble("standard input is closed")
    try:
        with open(0 if name == "-" else name, "rb") as sheet:
            return sheet.read(most)
    except (OSError, ValueError) as error:
        raise Trouble(f"{'standard input' if name == '-' else name}: {getattr(error, 'strerror', None) or error}") from error


def prefix():
    """The words before the program's path; it takes the kit to know them."""
    words = kit.run_prefix()
    missing = [word for word in words if os.path.isabs(word) and not os.path.exists(word)]
    if kit.machine() != kit.MACHINE:
        raise Trouble(f"the Rattle kit is for {kit.MACHINE}, and this machine is {kit.machine()}")
    if missing:
        raise Trouble(f"the Rattle kit at {kit.home()} has nothing for this machine, {kit.machine()}: there is no {missing[0]}")
    return words


def decimal(pattern):
    return repr(struct.unpack(">d", bytes.fromhex(pattern.decode()))[0])


def meaning(number):
    """What docs/REFUSALS.md says of a refusal."""
    try:
        with open(os.path.join(ROOT, "docs", "REFUSALS.md"), encoding="utf-8") as page:
            row = re.search(rf"^\| {number} \| ([^|]+) \|", page.read(), re.M)
    except OSError:
        row = None
    return row[1] if row else "docs/REFUSALS.md has no word for it"


def explain(lines):
    """Says what the program's lines mean; the status that they ask for."""
    sums, refused = SUMS.fullmatch(lines), REFUSED.fullmatch(lines)
    if sums:
        say(f"in decimal: faithful {decimal(sums[1])}, nearest {decimal(sums[2])}")
        return 0
    number = refused[1].decode()
    where = f", at place {refused[2].decode()} counted from 0" if refused[2] else ""
    say(f"refused {number}: {meaning(number)}{where}")
    return TOLD


def main():
    command.helped(__doc__)
    if len(sys.argv) != 2:
        raise Trouble("say one FILE, or - for standard input; scripts/sum --help tells more")
    sheet, words = begun(sys.argv[1], command.opened()), prefix()
    program = built.need(built.SHEET_PROGRAM)
    ended = subprocess.run([*words, program], input=sheet, stdout=subprocess.PIPE, check=False)
    if ended.returncode or not (SUMS.fullmatch(ended.stdout) or REFUSED.fullmatch(ended.stdout)):
        raise Trouble(f"{built.SHEET_PROGRAM.name} ended with status {ended.returncode} and printed {len(ended.stdout)} bytes")
    command.answer(ended.stdout)
    return explain(ended.stdout)


if __name__ == "__main__":
    command.run(main)
