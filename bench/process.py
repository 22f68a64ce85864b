"""A process that answers requests, a line to a line: the C driver, or fsum.py."""
import subprocess
import sys


class Process:
    def __init__(self, *words):
        self.pipe = subprocess.Popen(words, stdin=subprocess.PIPE, stdout=subprocess.PIPE, text=True)

    def ask(self, request):
        self.pipe.stdin.write(request + "\n")
        self.pipe.stdin.flush()
        answer = self.pipe.stdout.readline()
        if not answer:
            sys.exit(f"bench: no answer to '{request}'")
        return answer.split()

    def end(self):
        self.pipe.stdin.close()
        self.pipe.wait()
