#!/usr/bin/env python3
"""Tries the rows of crates/rows_prog/data with built programs over files of a folder, as crates/rows_prog/README.md says them.

    rows.py BIN FILE..              the folder of the programs `fwu` and `fip`, and the files of rows
    rows.py --files FOLDER FILE     writes the files that stand before the first row of a file of rows into a folder

It prints the name of each row that holds, and of each other one what was expected and what was found. It goes over all of them, and
ends with 1 where one doesn't hold, or a line is none.
"""
import os
import re
import subprocess
import sys
import tempfile

COMMON = "common.rows"


class Differs(Exception):
    """A row doesn't hold: what was expected and found."""


def differs(what, wanted, found):
    raise Differs(f"  {what}\n  expected:\n{wanted}\n  found:\n{found}")


def shown(value):
    """What is read or printed, as text."""
    return value.decode("utf-8", "backslashreplace")


def compare(name, at, wanted, found):
    """Says where the bytes of a file differ from those that are expected, and what stands there."""
    if wanted == found:
        return
    same = next((i for i, (one, other) in enumerate(zip(wanted, found)) if one != other), min(len(wanted), len(found)))
    place = f"{name}, {len(found)} bytes, from byte {at + same} on"
    differs(place, wanted[same : same + 64].hex(), found[same : same + 64].hex())


def lines_of(path):
    """The lines that say something, each with its number."""
    with open(path, encoding="utf-8", newline="\n") as file:
        for number, line in enumerate(file.read().split("\n"), 1):
            if line and not line.startswith("#"):
                yield f"{os.path.basename(path)}:{number}", line


def rows_of(path):
    """What stands before the first row, and each row with its name."""
    front, rows = [], []
    for place, line in lines_of(path):
        if line.startswith("row "):
            rows.append((line[4:], []))
        elif rows:
            rows[-1][1].append((place, line))
        else:
            front.append((place, line))
    return front, rows


class Files:
    """The files of a row, kept in memory."""

    def __init__(self):
        self.held = {}

    def get(self, name):
        return self.held.get(name)

    def put(self, name, data):
        self.held[name] = data


class Folder:
    """The same in a folder of the system."""

    def __init__(self, path):
        self.path = path

    def get(self, name):
        try:
            with open(os.path.join(self.path, name), "rb") as file:
                return file.read()
        except FileNotFoundError:
            return None

    def put(self, name, data):
        with open(os.path.join(self.path, name), "wb") as file:
            file.write(data)


class Step:
    """A line that does or asks something, with what the lines behind it say."""

    def __init__(self, kind="", words=()):
        self.kind, self.words = kind, words
        self.data = bytearray()
        self.place = None
        self.input, self.output, self.status = b"", b"", 0

    def add(self, data):
        if self.place is None:
            self.data += data
            return
        self.data[self.place : self.place + len(data)] = data
        self.place += len(data)


class Row:
    """The lines of a row are done one after the other; each step is, once the next one begins."""

    STEPS = {"file": 1, "is": 1, "has": 2, "none": 1}

    def __init__(self, files, programs=None):
        self.files, self.programs = files, programs
        self.step = Step()

    def do(self, lines):
        for place, line in lines:
            try:
                self.line(line)
            except (ValueError, TypeError, KeyError, IndexError) as error:
                raise Differs(f"  {place} is no line: {line} ({error})") from None
        self.finish()

    def line(self, line):
        word, _, rest = line.partition(" ")
        if word in self.STEPS:
            words = rest.split(" ")
            if len(words) != self.STEPS[word]:
                raise ValueError("so many words")
            self.begin(word, words)
        elif word == "run" and rest.split(" ")[0] in ("fwu", "fip"):
            self.begin(word, rest.split(" "))
        elif self.step.kind in ("file", "is", "has"):
            self.part(word, rest)
        elif self.step.kind == "run":
            self.stream(word, rest)
        else:
            raise ValueError("another word, or no step is before it")

    def begin(self, kind, words):
        self.finish()
        self.step = Step(kind, words)

    def part(self, word, rest):
        """A line that says bytes."""
        if word == "at":
            self.step.place = int(rest)
            if self.step.place > len(self.step.data):
                raise ValueError("behind the end")
        else:
            self.step.add(self.bytes_of(word, rest))

    def bytes_of(self, word, rest):
        if word == "hex":
            return bytes.fromhex(rest)
        if word == "text":
            return rest.encode()
        if word == "line":
            return rest.encode() + b"\n"
        if word == "times":
            count, digits = rest.split(" ")
            return bytes.fromhex(digits) * int(count)
        if word == "all":
            return self.piece([rest])
        if word == "part":
            name, at, count = rest.split(" ")
            return self.piece([name, at, count])
        raise ValueError("another word")

    def piece(self, words):
        """All bytes of a file, or those from a place on."""
        data = self.files.get(words[0])
        if data is None:
            raise ValueError("no such file")
        if len(words) == 1:
            return data
        at, count = int(words[1]), int(words[2])
        if at + count > len(data):
            raise ValueError("behind the end")
        return data[at : at + count]

    def stream(self, word, rest):
        """A line of what a program reads or prints."""
        if word == "status":
            self.step.status = int(rest)
        elif word == "<=":
            self.step.input += self.piece([rest])
        elif word == ">=":
            self.step.output += self.piece([rest])
        elif word[0] == "<":
            self.step.input += self.text(rest) * int(word[1:] or 1)
        elif word[0] == ">":
            self.step.output += self.text(rest) * int(word[1:] or 1)
        else:
            raise ValueError("another word")

    def text(self, rest):
        """A line and its end, with digits in the place of what stands in braces."""
        full = re.sub(r"\{([^}]*)\}", lambda found: self.piece(found[1].split(" ")).hex(), rest)
        return full.encode() + b"\n"

    def finish(self):
        """Does the step that was read."""
        step, self.step = self.step, Step()
        if step.kind == "file":
            self.files.put(step.words[0], bytes(step.data))
        elif step.kind in ("is", "has"):
            self.look(step)
        elif step.kind == "none":
            if self.files.get(step.words[0]) is not None:
                differs(step.words[0], "no file", "a file")
        elif step.kind == "run":
            self.run(step)

    def look(self, step):
        """Compares a file, or a part of it."""
        name, found = step.words[0], self.files.get(step.words[0])
        if found is None:
            differs(name, "a file", "no file")
        at = int(step.words[1]) if step.kind == "has" else 0
        if step.kind == "has":
            found = found[at : at + len(step.data)]
        compare(name, at, bytes(step.data), found)

    def run(self, step):
        program = os.path.join(self.programs, step.words[0])
        ended = subprocess.run([program, *step.words[1:]], cwd=self.files.path, input=step.input, capture_output=True, check=False)
        if ended.returncode != step.status or ended.stdout != step.output:
            wanted = f"{shown(step.output)}status {step.status}"
            found = f"{shown(ended.stdout + ended.stderr)}status {ended.returncode}"
            differs(" ".join(step.words), wanted, found)


def files_before(path):
    """The files that stand before the first row of a file of rows: their bytes, by their names."""
    row = Row(Files())
    common = os.path.join(os.path.dirname(path), COMMON)
    for one in dict.fromkeys([common, path]):
        row.do(rows_of(one)[0])
    return row.files.held


def tried(programs, fronts, lines):
    """What is wrong with a row, if something is."""
    with tempfile.TemporaryDirectory() as path:
        row = Row(Folder(path), programs)
        try:
            for part in fronts + [lines]:
                row.do(part)
        except Differs as wrong:
            return str(wrong)
    return None


def main(words):
    if words[0] == "--files":
        for name, data in files_before(words[2]).items():
            Folder(words[1]).put(name, data)
        return 0
    return try_all(words)


def try_all(words):
    programs = os.path.abspath(words[0])
    failed = 0
    names = []
    for path in words[1:]:
        front, rows = rows_of(path)
        common = rows_of(os.path.join(os.path.dirname(path), COMMON))[0]
        for name, lines in rows:
            wrong = tried(programs, [common, front], lines)
            names.append(name)
            failed += wrong is not None
            print(name if wrong is None else f"DIFFERS: {name}\n{wrong}")
    twice = [name for name in dict.fromkeys(names) if names.count(name) > 1]
    for name in twice:
        print(f"DIFFERS: {name}\n  there are two rows of this name")
    print(f"{len(names) - failed} rows hold, {failed} don't")
    return 1 if failed or twice else 0


if __name__ == "__main__":
    sys.exit(main(sys.argv[1:]))
