"""Where the Rattle kit is, how a C program is built with the kit alone, and how such a program is run: over the kit's own C library."""
import os
import shutil
import subprocess
import sys

TARGET = "x86_64-unknown-linux-gnu"
MACHINE = "x86_64"  # what the kit is for, and compiles for
HEADERS = os.path.join(os.path.dirname(os.path.abspath(__file__)), "host")  # the kit's compiler comes without a C library's
INCLUDE = os.path.join(os.path.dirname(os.path.dirname(HEADERS)), "include")
ROOT = os.path.dirname(INCLUDE)
QUIET = ("nothing has changed since", "running out/")  # what `rt` says of crates that it needn't prove again, and of a program that it only has to build


def home():
    """The kit's folder: the one above `rt`'s own."""
    rt = shutil.which("rt")
    if rt is None:
        raise SystemExit("the Rattle kit is not installed here: there is no 'rt' on the PATH")
    return os.path.dirname(os.path.dirname(os.path.realpath(rt)))


def machine():
    """What this machine is called: x86_64, say."""
    return os.uname().machine


def toolchain():
    return os.path.join(home(), "toolchain")


def clang():
    return os.path.join(toolchain(), "bin", "clang")


def c_commands(source, archives, program, *more):
    """The commands that make a program of one C file and archives of `rt lib`, with the object file beside it. More words for the compiler come last."""
    made, link = program + ".o", os.path.join(home(), "bin", "rattle-link")
    words = ["-std=c99", "-O2", "-Wall", "-Wextra", "-Werror", "-ffreestanding", "-fPIE", "-I", INCLUDE, "-isystem", HEADERS, *more]
    yield [clang(), f"--target={TARGET}", *words, "-c", source, "-o", made]
    yield [link, "--target", TARGET, "--toolchain", toolchain(), "-o", program, made, *archives]


def rt(verb, crate):
    """Runs rt in a crate's folder, with its own lines on standard error, but for the quiet ones; all that it says where it fails. Answers its status."""
    said = []
    home()  # without a kit that can be told in a better line than that there is no such file
    with subprocess.Popen(["rt", verb], cwd=os.path.join(ROOT, "crates", crate), stdin=subprocess.DEVNULL, stdout=subprocess.PIPE,
                          stderr=subprocess.STDOUT) as process:
        for line in process.stdout:
            line = line.decode(errors="replace")
            said.append(line)
            if line.startswith("rt: ") and not any(words in line for words in QUIET) and sys.stderr is not None:
                print(line, end="", file=sys.stderr, flush=True)
    if process.returncode and sys.stderr is not None:
        print("".join(said), end="", file=sys.stderr)
    return process.returncode


def run_prefix():
    """The words before a program's path: the kit's loader and C library."""
    lib = os.path.join(toolchain(), "lib")
    return [os.path.join(lib, "ld-linux-x86-64.so.2"), "--library-path", lib]
