"""Builds what bench/run times: the library's archive and that of the crate timed_c, which `rt lib` makes, the walk in C by two compilers, and the driver."""
import os
import shutil
import subprocess
import sys

HERE = os.path.dirname(os.path.abspath(__file__))
ROOT = os.path.dirname(HERE)
sys.path.insert(0, os.path.join(ROOT, "tests"))
import built  # noqa: E402
import command  # noqa: E402
import kit  # noqa: E402

PLACE = os.path.join(ROOT, "target", "bench")
DRIVER = os.path.join(PLACE, "driver")
C = ["-std=gnu11", "-O3", "-ffp-contract=off", "-Wall", "-Wextra", "-Werror"]
PACKAGES = ["gcc", "libc6-dev", "libmpfr-dev"]
TIMED = built.Made("timed_c", "libtimed_c.a", "lib")  # what no call hands out


def run(words, **more):
    done = subprocess.run(words, cwd=ROOT, stdout=subprocess.PIPE, stderr=subprocess.STDOUT, text=True, check=False, **more)
    if done.returncode:
        sys.exit(f"{done.stdout}\nbench: {' '.join(words)} ended with status {done.returncode}")
    return done.stdout


# ---- what has to be installed
def have_packages():
    if shutil.which("gcc") is None:
        return False
    source = "#include <stdio.h>\n#include <mpfr.h>\nint main(void) { return mpfr_get_version() == NULL; }\n"
    words = ["gcc", "-x", "c", "-", "-lmpfr", "-lgmp", "-o", os.path.join(PLACE, "found")]
    return subprocess.run(words, input=source, text=True, capture_output=True, check=False).returncode == 0


def install(packages, what):
    """Installs Debian's packages, since something of theirs isn't there."""
    wanted, words = " ".join(packages), ["apt-get", "install", "-y", *packages]
    if os.getuid() != 0:
        words = ["sudo", "-n", *words]
    if shutil.which(words[0]) is None or shutil.which("apt-get") is None:
        sys.exit(f"bench: {what} missing: install the packages {wanted} (Debian's names)")
    print(f"bench: {what} missing: installing {wanted}", flush=True)
    done = subprocess.run(words, stdout=subprocess.PIPE, stderr=subprocess.STDOUT, text=True, check=False)
    if done.returncode:
        sys.exit(f"{done.stdout[-2000:]}\nbench: could not install {wanted}; install them and run this again")


def packages():
    if have_packages():
        return
    install(PACKAGES, "gcc or MPFR's header is")
    if not have_packages():
        sys.exit("bench: gcc and MPFR's header are needed, and aren't found after their packages were installed")


# ---- the library
def libraries():
    """The archives, which are proved and built where they aren't of the sources."""
    try:
        return [built.need(made) for made in (built.ARCHIVE, TIMED)]
    except command.Trouble as trouble:
        sys.exit(f"bench: {trouble}")


# ---- C
def c_object(compiler, source, *words):
    made = os.path.join(PLACE, f"{os.path.basename(compiler)}-{source}.o")
    run([compiler, *C, *words, "-I", os.path.join(ROOT, "include"), "-c", os.path.join(HERE, f"{source}.c"), "-o", made])
    return made


def driver():
    os.makedirs(PLACE, exist_ok=True)
    packages()
    own = ["-isystem", os.path.join(ROOT, "tests", "host"), f"--target={kit.TARGET}", "-fPIC"]
    objects = [c_object("gcc", source) for source in ("main", "requests", "sums")]
    for source in ("walk", "best"):
        objects += [c_object("gcc", source, "-DCOMPILER=gcc"), c_object(kit.clang(), source, "-DCOMPILER=clang", *own)]
    run(["gcc", *objects, *libraries(), "-lmpfr", "-lgmp", "-o", DRIVER])


def singles():
    """The driver of bench/singles, its path."""
    os.makedirs(PLACE, exist_ok=True)
    packages()
    made = os.path.join(PLACE, "singles")
    run(["gcc", *(c_object("gcc", source) for source in ("singles", "requests")), libraries()[0], "-lmpfr", "-lgmp", "-o", made])
    return made


def versions():
    """What compiled what, in a sentence."""
    first = {word: run([word, "--version"]).splitlines()[0] for word in ("gcc", kit.clang())}
    ours = f"the kit's {first[kit.clang()]}"
    return f"The library is its archive of `rt lib`. The C code is compiled at -O3 by {first['gcc']}, the walk by {ours} too; all for the machine's baseline."
