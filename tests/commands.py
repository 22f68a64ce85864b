#!/usr/bin/env python3
"""The commands as one relies on them: exit statuses, help, what is built again, and what is installed.

    python3 tests/commands.py        exit status 1 on a difference

Statuses and help are tried on the repository itself. What is built again is tried in a small repository of its own, with an `rt` that hands out what the
real one has built and counts how often it is asked. Needs what `rt run` makes of crates/sum_sheet and `rt lib` of crates/kewohiata, and
builds it where it is missing.
"""
import os
import re
import shutil
import stat
import subprocess
import sys
import tempfile
import time

sys.dont_write_bytecode = True
import built  # noqa: E402
import command  # noqa: E402
import kit  # noqa: E402
import sheets  # noqa: E402

ROOT = built.ROOT
SHEET, REFUSED = "tests/sheets/example.sheet", "tests/sheets/nan_third.sheet"
PARTS = ["scripts", "tests", "docs", "include", "examples"]  # what the small repository has of the real one
CRATES = "low:\nlines: low\nsum_sheet: io lines\nkewohiata staticlib: low\nother: sum_sheet\n"
RT = """#!/bin/bash
# What the kit's rt would build in a crate's folder, and a line for each time it is asked.
echo "$1 ${{PWD##*/}}" >>'{room}/asked'
sleep "${{PAUSE:-0}}"
[ -z "${{FAILS:-}}" ] || {{ echo "rt: nothing is proved"; exit 1; }}
mkdir -p out
case $1 in
run) cp '{root}/crates/sum_sheet/out/sum_sheet' out/ ;;
lib) cp '{root}/crates/kewohiata/out/libkewohiata.a' out/ ;;
esac
"""

DIFFERENCES = []
COUNTS = {"commands with help": 0, "statuses": 0, "builds": 0, "archives": 0}


def expect(name, held, *more):
    if not held:
        DIFFERENCES.append((name, *more))
    return held


def read(path):
    with open(os.path.join(ROOT, path), encoding="utf-8") as f:
        return f.read()


def content(path):
    with open(os.path.join(ROOT, path), "rb") as f:
        return f.read()


def put(path, text, mode=0o644):
    os.makedirs(os.path.dirname(path), exist_ok=True)
    with open(path, "w", encoding="utf-8") as f:
        f.write(text)
    os.chmod(path, mode)
    return path


# ---- help
def commands():
    """Every file of these folders that begins as a command does."""
    for folder in ("scripts", "tools", "bench", "tests"):
        for name in sorted(os.listdir(os.path.join(ROOT, folder))):
            path = os.path.join(ROOT, folder, name)
            if os.path.isfile(path):
                with open(path, "rb") as f:
                    if f.read(2) == b"#!":
                        yield os.path.join(folder, name), path


def everything():
    """Every file of the repository, with its time and size: what a command leaves is seen."""
    found = {}
    for folder, folders, names in os.walk(ROOT):
        folders[:] = [name for name in folders if name != ".git"]
        for name in names + folders:
            told = os.lstat(os.path.join(folder, name))
            found[os.path.join(folder, name)] = told.st_mtime_ns if stat.S_ISREG(told.st_mode) else 0, told.st_size
    return found


def check_help():
    before = everything()
    for name, path in commands():
        words = ["bash", path] if read(path).startswith(("#!/bin/sh", "#!/usr/bin/env bash")) else [sys.executable, path]
        ended = subprocess.run([*words, "--help"], cwd=os.sep, stdin=subprocess.DEVNULL, capture_output=True, timeout=60, check=False)
        COUNTS["commands with help"] += 1
        expect(f"{name} --help", ended.returncode == 0 and not ended.stderr and name.encode() in ended.stdout, ended)
    after = everything()
    expect("help does nothing else", before == after, [path for path in {**before, **after} if before.get(path) != after.get(path)][:5])
    expect("there are commands", COUNTS["commands with help"] >= 20, COUNTS)


# ---- scripts/sum
def ended(words, stdin=None, **environment):
    """The status, standard output and the lines of standard error of scripts/sum."""
    with open(os.path.join(ROOT, stdin or os.devnull), "rb") as sheet:
        process = subprocess.run(["scripts/sum", *words], cwd=ROOT, stdin=sheet, capture_output=True, env={**os.environ, **environment}, check=False)
    return process.returncode, process.stdout.decode(), process.stderr.decode().splitlines()


def shell(line, folder=ROOT):
    process = subprocess.run(["bash", "-c", line], cwd=folder, stdin=subprocess.DEVNULL, capture_output=True, check=False)
    return process.returncode, process.stdout.decode(), process.stderr.decode().splitlines()


def check_status(name, got, status, out, *said):
    """One line on standard error, of scripts/sum, with these words in it."""
    COUNTS["statuses"] += 1
    lines = got[2]
    held = len(lines) == 1 and lines[0].startswith("scripts/sum: ") and all(word in lines[0] for word in said)
    expect(f"scripts/sum: {name}", got[:2] == (status, out) and held, got)


def check_sum():
    lines = read("tests/sheets/example.out")
    without = {"PATH": ":".join(folder for folder in os.environ["PATH"].split(":") if not os.path.exists(os.path.join(folder, "rt")))}
    decimal = "in decimal: faithful 1.0, nearest 1.0"
    check_status("sums", ended([SHEET]), 0, lines, decimal)
    check_status("standard input", ended(["-"], SHEET), 0, lines, decimal)
    check_status("refused", ended([REFUSED]), 1, "refused 2 at 2\n", "refused 2: ", "NaN", "place 2")
    check_status("nothing on standard input", ended(["-"]), 1, "refused 11\n", "refused 11: the sheet ends too soon")
    check_status("no file", ended(["no such file"]), 2, "", "no such file: No such file")
    check_status("a folder", ended(["tests"]), 2, "", "tests: Is a directory")
    check_status("no kit", ended([SHEET], **without), 2, "", "there is no 'rt' on the PATH")
    with tempfile.TemporaryDirectory() as folder:
        put(os.path.join(folder, "bin", "rt"), "#!/bin/sh\n", 0o755)
        check_status("another kit", ended([SHEET], PATH=f"{folder}/bin:{os.environ['PATH']}"), 2, "", "has nothing for this machine")
    check_status("no word", ended([]), 2, "", "say one FILE")
    check_status("two words", ended([SHEET, SHEET]), 2, "", "say one FILE")
    check_status("an empty word", ended([""]), 2, "", "No such file")
    check_status("closed input", shell("scripts/sum - <&-"), 2, "", "standard input is closed")
    check_status("a folder as input", shell("scripts/sum - <tests"), 2, "", "standard input is a folder")
    check_status("closed output", shell(f"scripts/sum {SHEET} >&-"), 2, "", "standard output is closed")
    check_status("full output", shell(f"scripts/sum {SHEET} >/dev/full"), 2, "", "standard output: ")
    check_status("no reader", shell(f"scripts/sum {REFUSED} | sleep 0; exit ${{PIPESTATUS[0]}}"), 2, "", "standard output: ")
    check_status("input closed beside a file", shell(f"scripts/sum {SHEET} <&-"), 0, lines, decimal)
    expect("scripts/sum: no standard error", shell(f"scripts/sum {SHEET} 2>&-") == (0, lines, []))
    expect("scripts/sum: nothing open", shell(f"scripts/sum {SHEET} <&- >&- 2>&-")[0] == 2)
    expect("scripts/sum: refused, with no standard error", shell(f"scripts/sum {REFUSED} 2>&-") == (1, "refused 2 at 2\n", []))


def check_grade():
    """Each grade of a list whose sum lies between two doubles or is one, refusals of the sheet and of the claim, and troubles."""
    between = "examples/between.sheet"  # 1, half of its last place, and a unit
    for name, line, status, out, said in (
        ("exact", f"scripts/grade {SHEET} 1", 0, "grade exact\n", "exact: "),
        ("minus zero", "scripts/grade tests/sheets/both_zeros.sheet -0.0", 0, "grade exact\n", "exact: "),
        ("nearest", f"scripts/grade {between} pattern:3FF0000000000001", 0, "grade nearest\n", "nearest: "),
        ("nearest in decimal", f"scripts/grade {between} 1.0000000000000002", 0, "grade nearest\n", "nearest: "),
        ("faithful", f"scripts/grade {between} 0x1p0", 0, "grade faithful\n", "faithful: "),
        ("wrong", f"scripts/grade - 1.0000000000000004 <{between}", 0, "grade wrong\n", "wrong: "),
        ("far off", f"scripts/grade {between} pattern:7FEFFFFFFFFFFFFF", 0, "grade wrong\n", "wrong: "),
        ("refused", f"scripts/grade {REFUSED} 1", 1, "refused 2 at 2\n", "place 2"),
        ("a bad list before a bad claim", f"scripts/grade {REFUSED} inf", 1, "refused 2 at 2\n", "place 2"),
        ("no claim", f"scripts/grade {SHEET} -inf", 1, "refused 20\n", "refused 20: the claim"),
        ("no sheet", "scripts/grade - 1 </dev/null", 1, "refused 11\n", "refused 11: "),
        ("no number", f"scripts/grade {SHEET} one", 2, "", "'one': no number"),
        ("beyond the doubles", f"scripts/grade {SHEET} 1e999", 2, "", "beyond the largest double"),
        ("no file", "scripts/grade 'no such file' 1", 2, "", "No such file"),
        ("one word", f"scripts/grade {SHEET}", 2, "", "say one FILE"),
        ("a folder as input", "scripts/grade - 1 <tests", 2, "", "standard input is a folder"),
        ("closed output", f"scripts/grade {SHEET} 1 >&-", 2, "", "standard output is closed"),
        ("full output", f"scripts/grade {SHEET} 1 >/dev/full", 2, "", "standard output: "),
        ("no kit", f"PATH=/nothing $(command -v sh) scripts/grade {SHEET} 1", 2, "", None),
    ):
        COUNTS["statuses"] += 1
        got = shell(line)
        held = said is None or (len(got[2]) == 1 and got[2][0].startswith("scripts/grade: ") and said in got[2][0])
        expect(f"scripts/grade: {name}", got[:2] == (status, out) and held, got)


def check_rescue():
    """A good sheet, damaged ones and what is said of them, refusals, and troubles. A sheet is no text: standard output is compared in bytes."""
    saved = {"example": sheets.sheet([sheets.TOP, sheets.ONE, sheets.SIGN + sheets.TOP]), "silent": sheets.rescue(content("examples/silent.sheet"))[0]}
    for name, line, status, out, said in (
        ("a good sheet", f"scripts/rescue {SHEET}", 0, saved["example"], ["3 of 3 entries saved, 0 dropped, 0 missing; 0 bytes lying over"]),
        ("standard input", f"scripts/rescue - <{SHEET}", 0, saved["example"], ["3 of 3 entries saved, 0 dropped, 0 missing; 0 bytes lying over"]),
        ("a dropped entry", "scripts/rescue examples/silent.sheet", 0, saved["silent"],
         ["3 of 4 entries saved, 1 dropped, 0 missing; 0 bytes lying over", "dropped the entry at place 2, 7FF8000000000000: a NaN or infinity"]),
        ("cut", f"head -c 14 {SHEET} | scripts/rescue -", 0, sheets.sheet([sheets.TOP]), ["1 of 3 entries saved, 0 dropped, 2 missing; 1 byte lying over"]),
        ("too large", "scripts/rescue tests/sheets/above_first.sheet", 0, sheets.sheet([]),
         ["0 of 1 entry saved, 1 dropped, 0 missing; 0 bytes lying over", "dropped the entry at place 0, 7E70000000000001: a magnitude above 2^1000"]),
        ("no header", "scripts/rescue - </dev/null", 1, b"", ["refused 11: "]),
        ("another version", "scripts/rescue tests/sheets/version_0.sheet", 1, b"", ["refused 12: "]),
        ("too many", "scripts/rescue tests/sheets/too_many_most.sheet", 1, b"", ["refused 1: "]),
        ("no sheet", "head -c 16777217 /dev/zero | scripts/rescue -", 2, b"", ["more than 16777216 bytes"]),
        ("no file", "scripts/rescue 'no such file'", 2, b"", ["No such file"]),
        ("two words", f"scripts/rescue {SHEET} {SHEET}", 2, b"", ["say one FILE"]),
        ("a folder as input", "scripts/rescue - <tests", 2, b"", ["standard input is a folder"]),
        ("closed output", f"scripts/rescue {SHEET} >&-", 2, b"", ["standard output is closed"]),
        ("full output", f"scripts/rescue {SHEET} >/dev/full", 2, b"", ["standard output: "]),
    ):  # fmt: skip
        COUNTS["statuses"] += 1
        got = subprocess.run(["bash", "-c", line], cwd=ROOT, stdin=subprocess.DEVNULL, capture_output=True, check=False)
        lines = got.stderr.decode().splitlines()
        held = len(lines) == len(said) and all(one.startswith("scripts/rescue: ") and other in one for one, other in zip(lines, said))
        expect(f"scripts/rescue: {name}", (got.returncode, got.stdout) == (status, out) and held, got)


def check_example():
    expected = read("examples/leaver.out")
    for name, line, status, out, said in (
        ("runs", "scripts/example", 0, expected, None),
        ("another word", "scripts/example nothing", 2, "", "nothing is known of nothing"),
        ("closed output", "scripts/example >&-", 2, "", "standard output is closed"),
        ("full output", "scripts/example >/dev/full", 2, "", "standard output: "),
        ("no kit", "PATH=/nothing $(command -v python3) scripts/example", 2, "", "there is no 'rt' on the PATH"),
    ):
        COUNTS["statuses"] += 1
        got = shell(line)
        held = got[2] == [] if said is None else len(got[2]) == 1 and got[2][0].startswith("scripts/example: ") and said in got[2][0]
        expect(f"scripts/example: {name}", got[:2] == (status, out) and held, got)


# ---- what is built again
class Room:
    """A small repository with crates of a line each, whose `rt` counts how often it is asked."""

    def __init__(self, folder):
        self.folder, self.asked = folder, os.path.join(folder, "asked")
        self.root = os.path.join(folder, "repository")
        self.put_kit()
        for part in PARTS:
            shutil.copytree(os.path.join(ROOT, part), os.path.join(self.root, part), symlinks=True)
        self.write("crates.txt", CRATES)
        for crate in ("low", "lines", "sum_sheet", "kewohiata", "other"):
            self.write(f"crates/{crate}/src/lib.rt", "// nothing\n")

    def put_kit(self):
        """A kit in the folder: another `rt`, and links to all else of the real one."""
        put(os.path.join(self.folder, "bin", "rt"), RT.format(room=self.folder, root=ROOT), 0o755)
        for part in ("", "bin"):
            for name in {*os.listdir(os.path.join(kit.home(), part))} - {"bin", "rt"}:
                os.symlink(os.path.join(kit.home(), part, name), os.path.join(self.folder, part, name))

    def write(self, path, text):
        return put(os.path.join(self.root, path), text)

    def started(self, *words, path=None, **environment):
        path = path or os.path.join(self.root, words[0])
        env = {**os.environ, "PATH": f"{self.folder}/bin:{os.environ['PATH']}", **environment}
        return subprocess.Popen([path, *words[1:]], cwd=os.sep, stdin=subprocess.DEVNULL, stdout=subprocess.PIPE, stderr=subprocess.PIPE, env=env)

    def ran(self, *words, **more):
        process = self.started(*words, **more)
        out, said = process.communicate(timeout=120)
        return process.returncode, out.decode(), said.decode().splitlines()

    def builds(self):
        """What `rt` was asked for since the last time."""
        if not os.path.exists(self.asked):
            return []
        with open(self.asked, encoding="utf-8") as f:
            lines = f.read().splitlines()
        os.remove(self.asked)
        COUNTS["builds"] += len(lines)
        return lines


def check_built(room, words, out, asked):
    """A command that prints `out`, and what `rt` is asked for by it, after one change or the other."""
    name = asked[0].split()[1]
    target, made = os.path.join(room.root, "target"), os.path.join(room.root, "crates", name, "out")

    def built_again(name, wanted, said="", **more):
        got = room.ran(*words, **more)
        again = room.builds()
        telling = not said or any(said in line for line in got[2])
        expect(f"{words[0]}: {name}", got[:2] == (0, out) and again == (asked if wanted else []) and telling, got, again)

    built_again("the first time", True, "is missing")
    built_again("again", False)
    os.utime(room.write("crates/low/src/lib.rt", "// changed\n"), (1, 1))  # by its time an old file
    built_again("a source changed", True, "sources have changed since")
    room.write("crates/low/specs/Lib.antt", "-- new\n")
    built_again("a new file", True, "sources have changed since")
    room.write("crates/other/src/lib.rt", "// changed\n")
    built_again("a crate that isn't below", False)
    room.write("crates.txt", re.sub(f"^({name}.*:)", r"\1 io", CRATES, flags=re.M))
    built_again("crates.txt", True, "sources have changed since")
    shutil.rmtree(os.path.join(target, "built"))
    built_again("built by hand", False)
    time.sleep(0.02)
    os.utime(room.write("crates/low/src/lib.rt", "// newer\n"), (time.time() + 5, time.time() + 5))
    built_again("newer sources", True, "sources are newer than")
    shutil.rmtree(target)
    shutil.rmtree(made)
    expect(f"{words[0]}: no proof", room.ran(*words, FAILS="1")[:2] == (2, "") and room.builds() == asked)
    both = [room.started(*words, PAUSE="2") for _ in range(2)]
    told = [(process.communicate(timeout=120)[0].decode(), process.returncode) for process in both]
    expect(f"{words[0]}: two at once", told == [(out, 0)] * 2 and room.builds() == asked, told)
    link = os.path.join(room.folder, "bin", f"linked-{os.path.basename(words[0])}")
    os.symlink(os.path.join(room.root, words[0]), link)
    built_again("through a link", False, path=link)
    with open(os.path.join(room.root, "crates.txt"), "ab") as f:
        f.write(b"\xff\n")  # which nothing is ready for: an error that nobody catches is no refusal
    got = room.ran(*words)
    expect(f"{words[0]}: a fault of its own", got[:2] == (2, "") and len(got[2]) == 1 and got[2][0].startswith(f"{words[0]}: UnicodeDecodeError: "), got)
    room.write("crates.txt", CRATES)
    shutil.rmtree(target)
    shutil.rmtree(made)
    room.write("target", "a file where a folder has to be\n")
    got = room.ran(*words)
    expect(f"{words[0]}: nothing can be written", got[:2] == (2, "") and len(got[2]) == 1 and "nothing can be built here" in got[2][0], got)
    os.remove(target)


def check_rooms():
    for words, out, asked in (
        (("scripts/sum", os.path.join(ROOT, SHEET)), read("tests/sheets/example.out"), ["run sum_sheet"]),
        (("scripts/example",), read("examples/leaver.out"), ["lib kewohiata"]),
    ):
        with tempfile.TemporaryDirectory() as folder:
            check_built(Room(folder), words, out, asked)


# ---- scripts/install
def check_linked(name, prefix, folder):
    """examples/leaver.c over what was installed, by gcc, prints what it must."""
    program = os.path.join(prefix, f"leaver-{name}")
    words = ["gcc", "-std=c99", "-I", os.path.join(prefix, "include"), os.path.join(ROOT, "examples", "leaver.c")]
    done = subprocess.run([*words, "-L", os.path.join(prefix, folder), "-lkewohiata", "-o", program], capture_output=True, check=False)
    if expect(f"install: {name}", done.returncode == 0, done):
        COUNTS["archives"] += 1
        expect(f"install: {name} runs", subprocess.run([program], stdout=subprocess.PIPE, check=False).stdout.decode() == read("examples/leaver.out"))


def check_install():
    with tempfile.TemporaryDirectory() as prefix:
        machine, own = kit.machine(), f"lib/{kit.machine()}"
        usual = {"include/kewohiata.h", "include/kewohiata.txt", "lib/libkewohiata.a", "lib/pkgconfig/kewohiata.pc"}
        for more, names in (([], usual), (["--native"], usual | {f"{own}/libkewohiata.a"})):
            done = subprocess.run(["scripts/install", prefix, *more], cwd=ROOT, stdin=subprocess.DEVNULL, capture_output=True, check=False)
            told = {os.path.relpath(line, prefix) for line in done.stdout.decode().splitlines()}
            there = {os.path.relpath(os.path.join(folder, name), prefix) for folder, _, some in os.walk(prefix) for name in some}
            expect(f"scripts/install {more}", done.returncode == 0 and told == there == names, done, there)
        said = read(os.path.join(prefix, "include", "kewohiata.txt"))
        wanted = ("lib/libkewohiata.a, for x86-64", f"{own}/libkewohiata.a, for {machine}", "clang version")
        expect("which back end", all(words in said for words in wanted), said)
        if shutil.which("pkg-config"):
            asked = ["pkg-config", "--with-path=" + os.path.join(prefix, "lib", "pkgconfig"), "--cflags", "--libs", "kewohiata"]
            told = subprocess.run(asked, capture_output=True, text=True, check=False).stdout.split()
            expect("kewohiata.pc", told == [f"-I{prefix}/include", f"-L{prefix}/{own}", "-lkewohiata"], told)
        if shutil.which("gcc"):
            check_linked("native", prefix, own)
            if machine == "x86_64":
                check_linked("kit", prefix, "lib")
    for words in ([], ["a", "b"], ["--other"], [os.path.join(os.devnull, "x")], [""]):
        done = subprocess.run(["scripts/install", *words], cwd=ROOT, stdin=subprocess.DEVNULL, capture_output=True, check=False)
        expect(f"scripts/install {words}", done.returncode == 2 and not done.stdout and done.stderr.count(b"\n") == 1, done)


def main():
    command.asked(__doc__)
    built.need(built.SHEET_PROGRAM)
    built.need(built.ARCHIVE)
    check_help()
    check_sum()
    check_grade()
    check_rescue()
    check_example()
    check_rooms()
    check_install()
    for difference in DIFFERENCES[:9]:
        print("commands:", *(str(part)[:600] for part in difference))
    print(f"commands: {', '.join(f'{n} {what}' for what, n in COUNTS.items())}, {len(DIFFERENCES)} differences")
    return 1 if DIFFERENCES else 0


if __name__ == "__main__":
    sys.exit(main())
