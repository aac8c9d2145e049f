#!/usr/bin/env python3
"""Types each line of README.md and docs/USAGE.md that begins with `$ `, and compares what it prints with the lines below it.

    docs.py [BIN]    BIN is bin/ where it isn't named

The lines of a page are typed one after the other in one shell and one folder of its own. What stands behind `<-` in a line is a
remark. The packages of README are made by the lines of USAGE.md. It prints a line for each block, and ends with 1 where one differs.
"""
import os
import re
import subprocess
import sys
import tempfile

sys.dont_write_bytecode = True
TOP = os.path.dirname(os.path.dirname(os.path.abspath(__file__)))


def blocks_of(page):
    """The line of each block of a page that has typed lines, and its text."""
    with open(os.path.join(TOP, page)) as file:
        text = file.read()
    for block in re.finditer(r"^```text\n(.*?)^```", text, re.S | re.M):
        if re.search(r"^\$ ", block[1], re.M):
            yield text[: block.start()].count("\n") + 1, block[1]


def steps_of(block):
    """Each typed command of a block, and the lines that it has to print."""
    steps = []
    lines = iter(block.splitlines())
    for line in lines:
        if line.startswith("$ "):
            command = line[2:]
            while command.endswith("\\"):
                command += "\n" + next(lines)
            steps.append((command, []))
        else:
            steps[-1][1].append(re.sub(r" +<- .*", "", line))
    return steps


class Shell:
    """One shell, in which commands are typed."""

    MARK = "the end of what a typed line prints"

    def __init__(self, bin):
        environment = dict(os.environ, PATH=bin + os.pathsep + os.environ["PATH"], LC_ALL="C")
        self.process = subprocess.Popen(
            ["bash"], stdin=subprocess.PIPE, stdout=subprocess.PIPE, stderr=subprocess.STDOUT, text=True, env=environment
        )

    def type(self, command):
        """The lines that a command prints."""
        self.process.stdin.write(f"{command}\necho '{self.MARK}'\n")
        self.process.stdin.flush()
        printed = []
        while True:
            line = self.process.stdout.readline()
            if not line or line.rstrip("\n") == self.MARK:
                return printed
            printed.append(line.rstrip("\n"))


def is_right(shell, page, line, block):
    """Types the commands of a block, and says whether each printed what stands below it."""
    right = True
    for command, wanted in steps_of(block):
        found = shell.type(command)
        if found != wanted:
            right = False
            print(f"DIFFERS: {page}:{line}: $ {command}")
            print("  expected:", *wanted, sep="\n    ")
            print("  found:", *found, sep="\n    ")
    if right:
        print(f"{page}:{line}")
    return right


def main():
    bin = os.path.abspath(sys.argv[1] if len(sys.argv) > 1 else os.path.join(TOP, "bin"))
    wrong = 0
    with tempfile.TemporaryDirectory() as folder:
        os.chdir(folder)
        for name in ("checks", "demo"):
            os.symlink(os.path.join(TOP, name), name)
        shell = Shell(bin)
        for page in ("docs/USAGE.md", "README.md"):
            for line, block in blocks_of(page):
                if page == "README.md":
                    shell.type("head -c 90112 /dev/zero >flash.img")
                wrong += not is_right(shell, page, line, block)
        os.chdir("/")
    return 1 if wrong else 0


if __name__ == "__main__":
    sys.exit(main())
