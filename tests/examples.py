#!/usr/bin/env python3
"""Runs what README.md and examples/README.md show, and compares what it prints; and the C examples.

    python3 tests/examples.py        exit status 1 on a difference

In a block marked console, a line with a dollar is a command and the lines behind it are what it prints. A block marked sh has commands alone, which have to
succeed; scripts/test, which runs this, isn't run again, nor a compiler that isn't there. A block marked python is run too, and the block marked text behind it
is what it prints; a block marked c is compiled. Needs what `rt run` makes of crates/sum_sheet
and `rt lib` of crates/kewohiata, and builds it where it is missing.
"""
import os
import re
import shutil
import subprocess
import sys

sys.dont_write_bytecode = True
import command  # noqa: E402
import kit  # noqa: E402

ROOT = os.path.dirname(os.path.dirname(os.path.abspath(__file__)))
PLACE = os.path.join(ROOT, "target", "example")
PAGES = ["README.md", "examples/README.md"]
BLOCK = re.compile(r"^```(\w+)\n(.*?)^```$", re.S | re.M)

DIFFERENCES = []
COUNTS = {"commands": 0, "programs": 0, "examples": 0}


def same(name, got, expected):
    if got != expected:
        DIFFERENCES.append((name, got, expected))
    return got == expected


def printed(command, **more):
    """What a command prints on standard output; what it says beside that is let through."""
    return subprocess.run(command, cwd=ROOT, stdout=subprocess.PIPE, check=False, **more).stdout.decode()


def read(path):
    with open(os.path.join(ROOT, path), encoding="utf-8") as f:
        return f.read()


# ---- the pages
def commands(block):
    """Each command of a console block, with what it prints."""
    for part in re.split(r"^\$ ", block, flags=re.M)[1:]:
        command, _, lines = part.partition("\n")
        yield command, lines


def lines_of(block):
    """The commands of a block that has nothing else, but for the gate's own; those that need a compiler of x86-64 where there is none."""
    lines = [line.split("  #")[0].strip() for line in block.splitlines()]
    for k, line in enumerate(lines):
        compiler = [other for other in lines[: k + 1] if other.startswith("gcc ") and (other is line or other.split()[-1] == line.split()[0])]
        if line and line != "scripts/test" and (not compiler or (shutil.which("gcc"))):
            yield line


def compiled(text):
    """The status of the kit's compiler on a C text, with every warning an error."""
    os.makedirs(PLACE, exist_ok=True)
    source = os.path.join(PLACE, "shown.c")
    with open(source, "w", encoding="utf-8") as f:
        f.write(text)
    compile_it, _ = kit.c_commands(source, [], os.path.join(PLACE, "shown"))
    return subprocess.run(compile_it, check=False).returncode


def check_page(page):
    blocks = BLOCK.findall(read(page))
    for k, (kind, text) in enumerate(blocks):
        if kind == "console":
            same(f"{page}: a block begins with a command", text[:2], "$ ")
            for command, lines in commands(text):
                COUNTS["commands"] += 1
                same(f"{page}: {command}", printed(["bash", "-c", command]), lines)
        elif kind == "sh":
            for command_line in lines_of(text):
                COUNTS["commands"] += 1
                same(f"{page}: {command_line}", subprocess.run(["bash", "-c", command_line], cwd=ROOT, stdout=subprocess.PIPE, check=False).returncode, 0)
        elif kind == "python":
            COUNTS["programs"] += 1
            shown = blocks[k + 1][1] if blocks[k + 1][0] == "text" else "a block marked text"
            same(f"{page}: the Python program", printed([sys.executable, "-c", text]), shown)
        elif kind == "c":
            COUNTS["programs"] += 1
            same(f"{page}: the C text", compiled(text), 0)


def check_example(name):
    """A C example prints what lies beside it, and a turned character of that would be seen."""
    got, expected = printed(["scripts/example", name]), read(f"examples/{name}.out")
    COUNTS["examples"] += same(f"scripts/example {name}", got, expected)
    same("a wrong line passes", [i for i in range(len(expected)) if got == expected[:i] + "#" + expected[i + 1 :]], [])


def check_examples():
    """Every C file of examples/."""
    names = sorted(name[:-2] for name in os.listdir(os.path.join(ROOT, "examples")) if name.endswith(".c"))
    same("without a name it is leaver", printed(["scripts/example"]), read("examples/leaver.out"))
    for name in names:
        check_example(name)


def main():
    command.asked(__doc__)
    for page in PAGES:
        check_page(page)
    check_examples()
    same("the pages show commands and programs", COUNTS["commands"] >= 12 and COUNTS["programs"] == 2, True)
    for name, got, expected in DIFFERENCES[:9]:
        print(f"examples: {name}: printed\n{got}\nand should\n{expected}")
    print(f"examples: {', '.join(f'{n} {what}' for what, n in COUNTS.items())}, {len(DIFFERENCES)} differences")
    return 1 if DIFFERENCES else 0


if __name__ == "__main__":
    sys.exit(main())
