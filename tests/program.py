"""The program that the tests run, the one that contrib/pan-program finds, and a watcher of it."""
import re
import subprocess
import sys
from pathlib import Path

TOP = Path(__file__).resolve().parent.parent


def found():
    ended = subprocess.run([TOP / "contrib" / "pan-program"], stdout=subprocess.PIPE, text=True)
    if ended.returncode:
        sys.exit(ended.returncode)
    return Path(ended.stdout.strip()).resolve()


PROGRAM = found()


class Watcher:
    """A watcher that is asked line by line."""

    def __init__(self, source, out):
        words = [PROGRAM, "watch", source, out]
        self.process = subprocess.Popen(words, stdin=subprocess.PIPE, stdout=subprocess.PIPE, text=True, bufsize=1)

    def ask(self, line, last):
        """What is written for a line, to the line that ends it."""
        self.process.stdin.write(line + "\n")
        self.process.stdin.flush()
        said = []
        while not said or not re.match(last, said[-1]):
            said.append(self.process.stdout.readline().rstrip("\n"))
            if said[-1] == "" and self.process.poll() is not None:
                raise RuntimeError(f"the watcher ended at {line}: {said}")
        return said

    def quit(self):
        self.process.stdin.write("quit\n")
        self.process.stdin.close()
        return self.process.wait(timeout=60)
