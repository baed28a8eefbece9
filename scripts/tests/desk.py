"""Scripts for test_desk, and its answers. A line of a script is the number of the growth that is refused, or 0, the call, and what it is
given; crates/test_desk/src says what each call answers."""

import os
import subprocess

from rows import parsed

READ, FEED, FINISH, MISFIT, WORLD, PROGRAM = 0, 1, 2, 3, 4, 5
BEGIN, SWAP, DELIVER, AUTHOR, INSERT, DELETE, MERGE, NOTHING, REPAIR = range(10, 19)
LOG, HELD, SAME, REPLAY, CHECK, COPY, NAMES = range(20, 27)
FIND, TEXT, VIEW, EXPORT, SAVE, WARNINGS = range(30, 36)


class Script:
    """Calls, and behind `answer` what each answers."""

    def __init__(self):
        self.lines, self.answers = [], []

    def call(self, call, *given, nth=0):
        """Adds a call; bytes are given as such, all else as numbers. Answers its number."""
        words = [it.hex() if isinstance(it, (bytes, bytearray)) else str(it) for it in (nth, call, *given)]
        self.lines.append(" ".join(words))
        return len(self.lines) - 1

    def answer(self, environment=None):
        """Has all calls made. Raises where the program doesn't end well, or doesn't answer each call."""
        text = "".join(f"{line}\n" for line in self.lines).encode()
        ran = subprocess.run([os.environ["TEST_DESK"]], input=text, capture_output=True, env=environment, timeout=600)
        answers = ran.stdout.decode("ascii").split("\n")
        if ran.returncode or len(answers) != len(self.lines) + 1:
            raise RuntimeError(f"test_desk: status {ran.returncode}, {len(answers) - 1} answers to {len(self.lines)} calls: {ran.stderr!r}")
        self.answers = answers

    def __getitem__(self, number):
        """The values that a call answered."""
        return parsed(self.answers[number].rstrip(" "))


def is_there():
    return "TEST_DESK" in os.environ
