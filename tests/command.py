"""What a command of this repository does with its words, and how it ends: --help prints its help and does nothing else, other words than it knows are told in
one line, and a command that has an answer to give ends with status 2 and one line where anything keeps it from that."""
import os
import sys

HELP = {"-h", "--help"}
BEHIND = {"sum.py", "grade.py", "rescue.py"}  # which a few lines of shell stand before


class Trouble(Exception):
    """What keeps us from an answer; the message says it."""


def named():
    """The command as one would call it from the root."""
    folder, name = os.path.split(os.path.realpath(sys.argv[0]))
    return os.path.join(os.path.basename(folder), name.removesuffix(".py") if name in BEHIND else name)


def say(text):
    """One line on standard error, where there is one: print would take standard output in its place."""
    if sys.stderr is not None:
        try:
            print(f"{named()}: {' '.join(str(text).split())}", file=sys.stderr, flush=True)
        except OSError:
            pass


def helped(text):
    """Prints the help and ends where it is asked for, among whatever words."""
    if HELP & set(sys.argv[1:]):
        try:
            give(text.strip().encode() + b"\n")
        except OSError:
            sys.exit(2)
        sys.exit(0)


def asked(text, *forms):
    """The words of a command that takes none or one of the forms. The text is its help."""
    helped(text)
    if sys.argv[1:] and sys.argv[1:] not in [list(form) for form in forms]:
        say(f"nothing is known of {' '.join(sys.argv[1:])}; {named()} --help tells more")
        sys.exit(2)
    return sys.argv[1:]


# ---- commands that give an answer
def closed():
    """Which of standard input, output and error are closed. Each is then held open on nothing, so that no file that is opened later takes its number."""
    found = set()
    for number in range(3):
        try:
            os.fstat(number)
        except OSError:
            found.add(number)
            os.open(os.devnull, os.O_RDWR)  # the lowest free number: this one
    return found


def opened():
    """What `closed` finds, where an answer can be given."""
    found = closed()
    if 1 in found:
        raise Trouble("standard output is closed")
    return found


def give(data):
    """Writes bytes to standard output, all of them, and keeps none back for the end of the program."""
    while data:
        data = data[os.write(1, data) :]


def answer(data):
    """Gives an answer, or tells why that can't be."""
    try:
        give(data)
    except OSError as error:
        raise Trouble(f"standard output: {error.strerror}") from error


def told(error):
    """An error in a line."""
    if isinstance(error, KeyboardInterrupt):
        return "stopped"
    if isinstance(error, OSError) and error.strerror:
        return f"{error.filename}: {error.strerror}" if error.filename else error.strerror
    return str(error) if isinstance(error, (Trouble, SystemExit)) else f"{type(error).__name__}: {error}"


def run(main):
    """Ends with the status that main answers, or with a line on standard error and status 2."""
    try:
        status = main()
    except SystemExit as error:
        if isinstance(error.code, int):
            raise
        say(told(error))
        status = 2
    except BaseException as error:  # pylint: disable=broad-except  # a traceback would end with status 1, which means refused
        say(told(error))
        status = 2
    sys.exit(status)
