#!/usr/bin/env python3
"""A model of an agent that is served over frames, and tries of the client demo/serve_client.py.

    serve_model.py [ROUNDS]             tries the client against the model, over links that lose and repeat
    serve_model.py --model              serves the model on the standard input and output
    serve_model.py --program FWU        updates a flash by FWU serve and by a script of the same calls, and compares them; and
                                        sends it packages that don't fit, which leave the flash as it was

It ends with 1 where something differs.
"""
import io
import os
import random
import struct
import subprocess
import sys
import tempfile
import threading
import uuid

sys.dont_write_bytecode = True
sys.path.insert(0, os.path.join(os.path.dirname(os.path.abspath(__file__)), "..", "..", "demo"))

import serve_client  # noqa: E402
from make_flash import NAMES, guid  # noqa: E402
from make_packages import CAPSULE_2, EXTRA, SOC_FW, manifest_of, of_one, of_three, package as packed, table  # noqa: E402
from serve_client import (  # noqa: E402
    ACCEPT, BEGIN, CANCEL, COMMIT, DISCOVER, END, LAST_NUMBER, OPEN, PREVIOUS, READ, ROOM, WRITE,
    Caller, Client, Line, digits, frame, number_of, numbered, steps_of, words,
)  # fmt: skip

DIRECTORY = guid("46575544-4952-4543-544f-525900000001")
CLIENT = os.path.join(os.path.dirname(os.path.abspath(__file__)), "..", "..", "demo", "serve_client.py")


def line_of(call, line):
    """What a line of a script prints."""
    [(_, *step)] = steps_of(line)
    return serve_client.line_of(call, *step)


class ModelAgent:
    """An agent of three images, of which each is installed that was committed. It notes each call that was made.

    It looks at no manifest, so its directory has version 0 of each image, and each as accepted.
    """

    FORMS = {DISCOVER: 0, BEGIN: 8, END: 0, CANCEL: 0, OPEN: 20, READ: 8, COMMIT: 12, ACCEPT: 16, PREVIOUS: 0}

    def __init__(self):
        self.images = {guid("manifest"): b"m" * 160, guid("tb-fw"): b"abc", guid("nt-fw"): b"hello"}
        self.room = {guid("manifest"): 4096, guid("tb-fw"): 8192, guid("nt-fw"): 16384}
        self.staged = None
        self.handles = {}
        self.made = []

    def answer(self, message):
        """The status and the results of a request's message."""
        function, arguments = number_of(message), message[4:]
        self.made.append(message)
        wrong = len(arguments) < 4 if function == WRITE else self.FORMS.get(function) != len(arguments)
        if wrong:
            return -100, b""
        numbers = struct.unpack_from(f"<{len(arguments) // 4}I", arguments)
        if (function == OPEN and numbers[4] > 1) or (function == READ and numbers[1] > ROOM):
            return -100, b""
        return getattr(self, f"f{function}")(arguments, numbers)

    def contents(self, name):
        return self.directory() if name == DIRECTORY else self.images[name]

    def directory(self):
        rows = [name + words(room, len(self.images[name]), 0, 1) for name, room in self.room.items()]
        return words(1, len(rows), 32, 0) + b"".join(rows)

    def f0(self, arguments, numbers):
        return 0, words(1, 0, 0 if self.staged is None else 1, 10, 0, *range(16, 25))

    def f16(self, arguments, numbers):
        if numbers[1]:
            return -8, b""
        self.staged, self.handles = {}, {}
        return 0, b""

    def f17(self, arguments, numbers):
        if self.staged is None:
            return -6, b""
        if any(writes for _, writes, _ in self.handles.values()):
            return -2, b""
        if set(self.staged) != set(self.images):
            return -4, b""
        self.images = {name: bytes(data) for name, data in self.staged.items()}
        self.staged, self.handles = None, {}
        return 0, b""

    def f18(self, arguments, numbers):
        if self.staged is None:
            return -6, b""
        self.staged, self.handles = None, {}
        return 0, b""

    def f19(self, arguments, numbers):
        name, writes = arguments[:16], numbers[4] == 1
        if name not in self.images and name != DIRECTORY:
            return -1, b""
        if writes and (name == DIRECTORY or self.staged is None or (name in self.staged and self.staged[name] is not None)):
            is_open = any(n == name and w for n, w, _ in self.handles.values())
            return (-2 if is_open else -6), b""
        handle = next(h for h in range(1, 40) if h not in self.handles)
        if handle > 32:
            return -2, b""
        self.handles[handle] = (name, writes, bytearray() if writes else bytearray(self.contents(name)))
        if writes:
            self.staged[name] = self.handles[handle][2]
        return 0, words(handle)

    def f20(self, arguments, numbers):
        if numbers[0] not in self.handles:
            return -1, b""
        name, writes, data = self.handles[numbers[0]]
        if not writes:
            return -6, b""
        if len(data) + len(arguments) - 4 > self.room[name]:
            return -3, b""
        data += arguments[4:]
        return 0, b""

    def f21(self, arguments, numbers):
        if numbers[0] not in self.handles:
            return -1, b""
        name, writes, data = self.handles[numbers[0]]
        if writes:
            return -6, b""
        piece = bytes(data[: numbers[1]])
        del data[: numbers[1]]
        return 0, words(len(self.contents(name))) + piece

    def f22(self, arguments, numbers):
        return (0 if self.handles.pop(numbers[0], None) else -1), b""

    def f23(self, arguments, numbers):
        if self.staged is not None:
            return -6, b""
        return (0 if arguments in self.images else -1), b""

    def f24(self, arguments, numbers):
        return -6, b""


def model_serve(source, sink, agent):
    """Serves a stream to its end, and gives the status."""
    last, kept = 0, b""
    while True:
        head = source.read(4)
        if not head:
            return 0
        size = int.from_bytes(head, "little")
        if len(head) < 4 or size < 8 or size > 4108:
            return 11
        body = source.read(size)
        if len(body) < size:
            return 11
        number = int.from_bytes(body[:4], "little")
        if number == last + 1:
            status, results = agent.answer(body[4:])
            reply = body[:4] + status.to_bytes(4, "little", signed=True) + results
            last, kept = number, len(reply).to_bytes(4, "little") + reply
        elif number != last or number == 0:
            continue
        sink.write(kept)
        sink.flush()


def serve_pipes(source, sink, agent, statuses):
    with os.fdopen(source, "rb") as requests, os.fdopen(sink, "wb") as replies:
        statuses.append(model_serve(requests, replies, agent))


MANIFEST, TB_FW, NT_FW = map(NAMES.get, ("manifest", "tb-fw", "nt-fw"))
THREE = of_three(2)

# Files that are no package, and what a sending of each answers.
NO_PACKAGES = [
    ("no bytes", b"", "bad-package short-header"),
    ("15 bytes", THREE[:15], "bad-package short-header"),
    ("another name", b"\2" + THREE[1:], "bad-package bad-name"),
    ("serial number 0", THREE[:4] + bytes(4) + THREE[8:], "bad-package zero-serial"),
    ("a header alone", THREE[:16], "bad-package no-end 0"),
    ("an entry that isn't whole", THREE[:95], "bad-package no-end 1"),
    ("no marker", THREE[:136], "bad-package no-end 3"),
    ("a marker that isn't whole", THREE[:175], "bad-package no-end 3"),
    ("65 entries", packed([(str(uuid.UUID(int=i + 1)), b"") for i in range(65)]), "bad-package too-many"),
    ("a type twice", packed([("tb-fw", b"abc"), ("nt-fw", b"hello"), ("tb-fw", b"abc")]), "bad-package duplicate 2"),
    ("a byte less", THREE[:-1], "bad-package beyond 2"),
    ("the greatest place", table([("tb-fw", 2**64 - 1, 2**64 - 1), 96]), "bad-package beyond 0"),
]
CAPSULES = [
    (name, data, "bad-package a capsule: this client sends packages alone, and `fip package` makes one of it")
    for name, data in (("a capsule", CAPSULE_2), ("a front of a capsule", CAPSULE_2[:16]))
]

# Packages that don't fit the slots of the model: 1, 2 and 4 blocks.
NO_FITS = [
    ("no entry", packed([]), f"missing {MANIFEST}"),
    ("64 entries of other types", packed([(str(uuid.UUID(int=i + 1)), b"") for i in range(64)]), f"missing {MANIFEST}"),
    ("another image", packed([(SOC_FW, b"xyz")]), f"missing {MANIFEST}"),
    ("the manifest alone", of_one(manifest_of(2)), f"missing {TB_FW}"),
    ("no last image", packed([("manifest", manifest_of(2)), ("tb-fw", b"abc")]), f"missing {NT_FW}"),
    ("a manifest too large", of_three(2, text=bytes(4097)), f"too-large {MANIFEST}"),
    ("an image too large", of_three(2, tb_fw=bytes(8193)), f"too-large {TB_FW}"),
    ("the last image too large", of_three(2, nt_fw=bytes(16385)), f"too-large {NT_FW}"),
    ("too large, and none", packed([("tb-fw", bytes(8193)), ("manifest", b"")]), f"too-large {TB_FW}"),
    ("none, and too large", packed([("nt-fw", bytes(16385)), ("manifest", b"")]), f"missing {TB_FW}"),
]

# What the client asks where it looks at the directory alone.
LOOK = [words(OPEN) + DIRECTORY + words(0), words(READ, 1, 4096), words(COMMIT, 1, 0, 0)]

# Scripts that aren't done, the number of the line that is none, and what is told of it.
UNSENT = [
    ("send p.fip now partial", 1, "no partial update"),
    ("discover\nbegin tb-fw", 2, "no partial update"),
    ("discover\n\n# remark\nsend nowhere.fip now", 4, "nowhere.fip"),
    ("send p.fip now\nsend . trial", 2, "directory"),
    ("discover ", 1, "line of a script"),
    ("discover\r\n", 1, "line of a script"),
    ("send p.fip", 1, "line of a script"),
    ("send p.fip later", 1, "line of a script"),
    ("open tb-fw x", 1, "line of a script"),
    ("open tb_fw r", 1, "'tb_fw'"),
    ("accept 00000000000000000000000000000000", 1, "name"),
    ("read 1 4097", 1, "4097"),
    ("read 4294967296 1", 1, "4294967296"),
    ("read 01 1", 1, "'01'"),
    ("write 1 abc", 1, "'abc'"),
    ("write 1 ", 1, "bytes"),
    (f"write 1 {'00' * 4097}", 1, "4096"),
    ("boot", 1, "no such call"),
    ("show", 1, "no such call"),
    ("cut 1 0", 1, "no such call"),
]


def calls_of(agent):
    return lambda function, arguments=b"": agent.answer(words(function) + arguments)


def client(fwu, flash, script, options=()):
    return subprocess.run([sys.executable, "-B", CLIENT, *options, fwu, flash], input=script, capture_output=True, text=True)


def make_program(name, text):
    with open(name, "w") as file:
        file.write(f"#!/bin/sh\n{text}\n")
    os.chmod(name, 0o755)
    return name


class SelfTest:
    def __init__(self):
        self.failed = 0
        self.rows = 0

    def same(self, name, found, wanted):
        self.rows += 1
        if found != wanted:
            self.failed += 1
            print(f"DIFFERS: {name}\n  expected: {wanted!r}\n  found:    {found!r}")

    def stream(self, name, stream, wanted, status):
        """A stream of bytes gives these bytes and this status."""
        sink = io.BytesIO()
        found = model_serve(io.BytesIO(bytes.fromhex(stream)), sink, ModelAgent())
        self.same(name, (sink.getvalue().hex(" ", 4), found), (bytes.fromhex(wanted).hex(" ", 4), status))

    def worked(self):
        begin = "10000000 01000000 10000000 00000000 00000000"
        done = "08000000 01000000 00000000"
        not_so = "08000000 02000000 9cffffff"
        self.stream("a begin twice, and an end", begin * 2 + "08000000 02000000 11000000", done * 2 + "08000000 02000000 fcffffff", 0)
        self.stream("11 bytes of a begin", begin.replace(" ", "")[:22], "", 11)
        self.stream("no bytes", "", "", 0)
        for name, rest in [
            ("length 0", "00000000"),
            ("length 7", "07000000" + "00" * 7),
            ("length 4109", "0d100000" + "00" * 4109),
            ("the greatest length", "ffffffff"),
            ("a body that ends early", "08000000" + "00" * 7),
            ("a length that ends early", "080000"),
        ]:
            self.stream(name, rest, "", 11)
            self.stream(f"a begin, {name}", begin + rest, done, 11)
        discovered = "40000000 01000000 00000000 01000000 00000000 00000000 0a000000 00000000"
        discovered += "".join(f"{n:02x}000000" for n in range(16, 25))
        self.stream("a discover", "08000000 01000000 00000000", discovered, 0)
        self.stream("number 0", "08000000 00000000 11000000", "", 0)
        self.stream("number 2 first", "08000000 02000000 11000000", "", 0)
        self.stream("numbers 1, 3, 2", begin + "08000000 03000000 11000000 08000000 02000000 12000000", done + "08000000 02000000 00000000", 0)
        self.stream("other bytes behind the same number", begin + "08000000 01000000 11000000", done * 2, 0)
        for name, message in [
            ("function 1", "01000000"),
            ("function 25", "19000000"),
            ("a byte more", "1100000000"),
            ("a begin without its count", "10000000 00000000"),
            ("op 2", "13000000" + "00" * 16 + "02000000"),
            ("room 4097", "15000000 01000000 01100000"),
            ("a write without its handle", "14000000 010000"),
        ]:
            body = numbered(2, bytes.fromhex(message))
            self.stream(f"{name}, twice", begin + frame(body).hex() * 2, done + not_so * 2, 0)

    def asking(self):
        client = Client()
        first = client.ask(words(DISCOVER))
        self.same("the first request", first, bytes.fromhex("08000000 01000000 00000000"))
        self.same("asking while one is open", client.ask(words(END)), None)
        self.same("again", client.again(), first)
        self.same("another number", client.take(words(2, 0)), False)
        self.same("a short reply", client.take(b"\x01\0\0"), False)
        self.same("its reply", client.take(words(1, 0)), True)
        self.same("its reply again", client.take(words(1, 0)), False)
        client.last = LAST_NUMBER
        self.same("asking with no number left", client.ask(words(END)), None)

    def sends(self, name, data, answer, calls):
        """A sending of this file, its answer and all calls that it makes."""
        written("sent.fip", data)
        agent = ModelAgent()
        self.same(name, line_of(calls_of(agent), "send sent.fip now"), f"send {answer}")
        self.same(f"{name}: calls", agent.made, calls)

    def judging(self):
        """What doesn't fit is told so, and nothing is asked for that changes anything."""
        for row in NO_PACKAGES + CAPSULES:
            self.sends(*row, [])
        for row in NO_FITS:
            self.sends(*row, LOOK)
        agent = ModelAgent()
        for _ in range(32):
            line_of(calls_of(agent), "open tb-fw r")
        self.same("no handle for the directory", line_of(calls_of(agent), "send sent.fip now"), "send BUSY")
        fits = of_three(2, tb_fw=bytes(8192), nt_fw=bytes(16384), text=bytes(4096))
        for name, data, skipped in (("slots that are filled", fits, 0), ("another order and other types", EXTRA, 2)):
            written("sent.fip", data)
            agent = ModelAgent()
            self.same(name, line_of(calls_of(agent), "send sent.fip now"), f"send SUCCESS images=3 skipped={skipped}")
            opened = [message[4:20] for message in agent.made if number_of(message) == OPEN]
            self.same(f"{name}: order", opened, [DIRECTORY, guid("manifest"), guid("tb-fw"), guid("nt-fw")])

    def unsent(self):
        """A script with a line that is none starts no program, and one line tells which."""
        written("p.fip", THREE)
        fwu = make_program("./notes", "touch started")
        for script, number, told in UNSENT:
            done = client(fwu, "-", script)
            self.same(f"{script[:40]!r}", (done.stdout, done.returncode, os.path.exists("started")), ("", 4, False))
            is_told = f"line {number}," in done.stderr and told in done.stderr and done.stderr.count("\n") == 1
            self.same(f"{script[:40]!r}: what is told", is_told or done.stderr, True)
        done = client("./none", "-", "discover\n")
        self.same("no program", (done.stdout, done.returncode, "'./none'" in done.stderr), ("", 4, True))

    def early(self):
        """A program that ends before it answers, with a status of docs/USAGE.md."""
        ends = {0: "fwu", 5: "FLASH can't be used", 6: "no bank could be started", 9: "memory was wanting", 12: "power was lost"}
        for status, meaning in ends.items():
            done = client(make_program("./ends", f"exit {status}"), "-", "# remark\ndiscover\nend\n")
            is_told = all(part in done.stderr for part in ("line 2", f"with {status}", meaning)) and done.stderr.count("\n") == 1
            self.same(f"status {status}", (done.stdout, done.returncode, is_told or done.stderr), ("", status or 1, True))

    def program(self, folder, package):
        """This program as it is run, on the model in place of fwu."""
        this = os.path.abspath(__file__)
        fwu = make_program(os.path.join(folder, "fwu"), f"exec '{sys.executable}' -B '{this}' --model")
        script = f"# an update\ndiscover\n\nsend {package} now\nopen tb-fw r\nread 1 3\nread 9 1\nend\n"
        wanted = "discover 1.0 regular 0,16,17,18,19,20,21,22,23,24\nsend SUCCESS images=3 skipped=0\n"
        wanted += "open SUCCESS handle=1\nread SUCCESS total=5120 000102\nread UNKNOWN\nend DENIED\n"
        for options in ([], ["--lose", "20", "--repeat", "30", "--seed", "5"], ["--twice", "--lose-replies", "3"]):
            done = client(fwu, "-", script, options)
            self.same(f"the program with {options}", (done.stdout, done.stderr, done.returncode), (wanted, "", 0))

    def rounds(self, count, package):
        """Scripts over a line that loses and repeats print what they print of an agent beside."""
        for seed in range(count):
            chance = random.Random(seed)
            script = [random_line(chance, package) for _ in range(40)]
            beside, served = ModelAgent(), ModelAgent()
            wanted = [line_of(calls_of(beside), line) for line in script]
            there, back = os.pipe(), os.pipe()
            statuses = []
            thread = threading.Thread(target=serve_pipes, args=(there[0], back[1], served, statuses))
            thread.start()
            with os.fdopen(there[1], "wb") as requests:
                way = Line(os.fdopen(back[0], "rb"), requests, chance.choice((0, 20)), chance.choice((0, 40)), seed)
                call = Caller(way).call
                found = [line_of(call, line) for line in script]
            thread.join()
            self.same(f"round {seed}: the lines", found, wanted)
            self.same(f"round {seed}: each request acts once, in order", served.made, beside.made)
            self.same(f"round {seed}: the images", served.images, beside.images)
            self.same(f"round {seed}: the status", statuses, [0])


def random_line(chance, package):
    name = chance.choice(("manifest", "tb-fw", "nt-fw", "nt-fw", str(uuid.UUID(int=7))))
    handle = chance.randrange(1, 4)
    return chance.choice(
        (
            "discover",
            "begin",
            f"open {name} r",
            f"open {name} w",
            f"open {name} w",
            f"write {handle} {digits(chance.randbytes(chance.choice((0, 1, 16, 4096))))}",
            f"read {handle} {chance.choice((0, 1, 4096))}",
            f"commit {handle} {chance.choice(('now', 'trial'))}",
            "end",
            "cancel",
            f"accept {name}",
            "previous",
            f"send {package} {chance.choice(('now', 'trial'))}",
        )
    )


def self_test(rounds):
    test = SelfTest()
    test.worked()
    test.asking()
    with tempfile.TemporaryDirectory() as folder:
        package = os.path.join(folder, "p.fip")
        with open(package, "wb") as file:
            file.write(of_three(2, tb_fw=bytes(range(256)) * 20))
        test.rounds(rounds, package)
        test.program(folder, package)
        os.chdir(folder)
        test.judging()
        test.unsent()
        test.early()
        os.chdir("/")
    print(f"{test.rows - test.failed} of {test.rows} hold")
    return 1 if test.failed else 0


# The program itself.


SCRIPT = "discover\nsend {package} trial\ndiscover\naccept manifest\nopen tb-fw r\nread 1 4096\n"


def written(name, text):
    with open(name, "wb") as file:
        file.write(text)


def updates_alike(fwu, options):
    """Whether the client over such a link leaves the flash that a script of the same calls leaves, byte for byte."""
    flash = b"\xff" * 4096 * 64
    written("p1.fip", of_three(1))
    written("p2.fip", of_three(2, tb_fw=bytes(range(256)) * 40, nt_fw=bytes(range(255, -1, -1)) * 77))
    written("served.img", flash)
    subprocess.run([fwu, "served.img", "format", "manifest:1,tb-fw:3,nt-fw:6", "p1.fip"], stdout=subprocess.DEVNULL, check=True)
    with open("served.img", "rb") as file:
        written("scripted.img", file.read())
    text = SCRIPT.format(package="p2.fip")
    served = client(fwu, "served.img", text, options)
    script = subprocess.run([sys.executable, "-B", CLIENT, "--script"], input=text, capture_output=True, text=True).stdout
    subprocess.run([fwu, "scripted.img", "run"], input=script, text=True, stdout=subprocess.DEVNULL, check=True)
    with open("served.img", "rb") as one, open("scripted.img", "rb") as other:
        is_same = one.read() == other.read()
    is_done = served.returncode == 0 and "send SUCCESS images=3 skipped=0" in served.stdout
    print(f"{' '.join(options) or 'a good link'}: {'the same flash' if is_same and is_done else 'DIFFERS'}")
    return is_same and is_done


def contents_of(name):
    with open(name, "rb") as file:
        return file.read()


def scripted(fwu, script):
    return subprocess.run([fwu, "flash.img", "run"], input=script, capture_output=True, text=True).stdout


def leaves_flash(fwu):
    """Whether files that don't fit are answered over serve, as they are in a script, and leave both banks of a flash."""
    written("p1.fip", of_three(1))
    written("p2.fip", THREE)
    written("flash.img", b"\xff" * 4096 * 22)
    subprocess.run([fwu, "flash.img", "format", "manifest:1,tb-fw:2,nt-fw:4", "p1.fip"], stdout=subprocess.DEVNULL, check=True)
    booted = "boot bank=1 version=2 trials=0 counter=2\n"
    is_made = scripted(fwu, "boot\nsend p2.fip now\nboot\n").endswith(booted)
    flash = contents_of("flash.img")
    rows = NO_PACKAGES + NO_FITS + CAPSULES
    for i, (_, data, _) in enumerate(rows):
        written(f"{i}.fip", data)
    lines = [f"send {i}.fip now\n" for i in range(len(rows))]
    wanted = [f"send {answer}\n" for _, _, answer in rows]
    is_answered = client(fwu, "flash.img", "".join(lines)).stdout == "".join(wanted)
    count = len(rows) - len(CAPSULES)
    is_alike = scripted(fwu, "boot\n" + "".join(lines[:count])) == booted + "".join(wanted[:count])
    is_left = is_made and is_answered and is_alike and contents_of("flash.img") == flash
    print(f"{len(rows)} files that don't fit: {'the flash as before' if is_left else 'DIFFERS'}")
    return is_left


def try_program(fwu):
    links = ([], ["--twice", "--lose-replies", "3"], ["--lose", "20", "--repeat", "30", "--seed", "1"])
    with tempfile.TemporaryDirectory() as folder:
        os.chdir(folder)
        alike = [leaves_flash(fwu)] + [updates_alike(fwu, options) for options in links]
        os.chdir("/")
    return 0 if all(alike) else 1


def main():
    if sys.argv[1:] == ["--model"]:
        return model_serve(sys.stdin.buffer, sys.stdout.buffer, ModelAgent())
    if sys.argv[1:2] == ["--program"]:
        return try_program(os.path.abspath(sys.argv[2]))
    return self_test(int(sys.argv[1]) if len(sys.argv) > 1 else 20)


if __name__ == "__main__":
    sys.exit(main())
