"""The programs of bench/programs. The head of each text says what it does, with which query, and what the session writes first:

    % query: bench(SIZE, X).
    % output: answer 1: X = VALUE
"""
import os
import re

FOLDER = os.path.join(os.path.dirname(os.path.realpath(__file__)), "programs")
HEAD = re.compile(r"% (?P<what>.*)\n% query: bench\((?P<size>\d+), X\)\.\n% output: (?P<output>answer 1: X = (?P<value>.*))\n")


class Classic:
    """A program with its text, its size, the line that the query's session begins with, and the value in it."""

    def __init__(self, name):
        self.name = name
        self.file = os.path.join(FOLDER, f"{name}.pl")
        with open(self.file, encoding="utf-8") as file:
            self.text = file.read()
        head = HEAD.match(self.text)
        assert head, f"{self.file}: the head isn't as it should be"
        self.size = int(head["size"])
        self.output = head["output"]
        self.value = head["value"]

    def query(self, size):
        return f"bench({size}, X)."


def classics():
    """All programs, by name."""
    return [Classic(file[:-3]) for file in sorted(os.listdir(FOLDER)) if file.endswith(".pl")]
