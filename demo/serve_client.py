#!/usr/bin/env python3
"""Updates a flash over a byte stream: the calls of a script, as requests to `fwu FLASH serve` over two pipes.

    serve_client.py [OPTIONS] FWU FLASH    runs FWU FLASH serve, and does the script's lines of the standard input
    serve_client.py --script               prints instead the lines of `fwu FLASH run` that make the same calls

A script has the lines of `fwu FLASH run` that are calls of the agent: discover, begin, open, write, read, commit, end, cancel, accept,
previous and send. Each prints the line that it prints there.

A `send` judges its package before anything changes, by the package's table and by the agent's directory of images. A package that
lacks an image, has one too large, or is none, is told so. Then come a begin, the images in pieces of 4096 bytes, and an end. What the
images hold is judged by the agent, at the end: behind `send end AUTH_FAIL` the update bank is empty, as with `run`.

What it does not do, and `run` does:
- A capsule isn't sent. `fip package` makes a package of one.
- There is no partial update: neither `partial` nor names behind `begin`. There is no `boot`, since serve boots once, no `show`, no `cut`.
- A `write` has at most 4096 bytes, as a request has.
- A `send` while all handles are open is `send BUSY`, and nothing was done: the directory is read through one.

The whole script is read first, with the packages that it names. Where a line is none, or a file can't be read, one line on the
standard error tells which; nothing was sent, and the status is 4. Else it ends with the status of serve, and where that isn't 0 one
line on the standard error tells what it means. Wrong words behind its name are status 2, with a line of usage.

`--script` knows no layout: it takes each entry of a package for an image, and misses none. So what it prints may empty the update
bank where a `send` would not. A package that is none is a remark there.

A frame is a length in four bytes, and that many bytes. Of a request these are its number, the number of a function and its arguments;
of a reply the number of its request, a status and what was asked for. All numbers are little-endian, of four bytes. The formats stand
in docs/FORMATS.md. This needs Python 3.10 and its standard library alone. `Client`, `Line` and `Caller` are what a client of your own
starts from.

The link may be bad, which shows in nothing that is printed. A request is sent again until its reply comes.
    --lose L           a frame is lost L times in a hundred, on its way to the agent or from it
    --repeat R         a frame comes again R times in a hundred, at once; and an earlier request comes late as often
    --twice            every frame is sent twice
    --lose-replies N   every N-th reply is lost
    --seed SEED        which frames these are
"""
import argparse
import contextlib
import itertools
import queue
import random
import re
import struct
import subprocess
import sys
import threading
import uuid

FEWEST, MOST = 8, 4108  # bytes of a body
ROOM = 4096  # the most bytes that are read or written by one request
LAST_NUMBER = 2**32 - 1
PATIENCE = 0.05  # seconds until a request is sent again
NOTHING_SENT = 4  # a status that serve has not

DISCOVER, BEGIN, END, CANCEL, OPEN, WRITE, READ, COMMIT, ACCEPT, PREVIOUS = 0, 16, 17, 18, 19, 20, 21, 22, 23, 24
SEND = None  # a line of several calls
SIMPLE = {"discover": DISCOVER, "begin": BEGIN, "end": END, "cancel": CANCEL, "previous": PREVIOUS}  # lines of one word
STATUSES = {
    0: "SUCCESS",
    -1: "UNKNOWN",
    -2: "BUSY",
    -3: "OUT_OF_BOUNDS",
    -4: "AUTH_FAIL",
    -6: "DENIED",
    -8: "NOT_AVAILABLE",
    -100: "NOT_UNDERSTOOD",
}
STATES = ("regular", "staging", "trial")
REQUESTS = ("now", "trial")
NAMES = {
    "tb-fw": "5ff9ec0b-4d22-3e4d-a544-c39d81c73f0a",
    "soc-fw": "47d4086d-4cfe-9846-9b95-2950cbbd5a00",
    "tos-fw": "05d0e189-53dc-1347-8d2b-500a4b7a3e38",
    "nt-fw": "d6d0eea7-fcea-d54b-9782-9934f234b6e4",
    "manifest": "4657554d-414e-4946-4553-540000000001",
    "dir": "46575544-4952-4543-544f-525900000001",
}
PACKAGE_NAME = 0xAA640001
CAPSULE = uuid.UUID("6dcbd5ed-e82d-4c44-bda1-7194199ad92a").bytes_le  # what a capsule begins with
MOST_ENTRIES = 64
ENDS = {
    2: "its standard input failed",
    3: "its standard output failed",
    5: "the flash failed, or FLASH can't be used (is it there, writable, and of 8 to 65,536 whole blocks of 4096 bytes?)",
    6: "no bank could be started",
    8: "more than 1,073,741,824 bytes came",
    9: "memory was wanting",
    11: "a frame had a length that none may have",
    12: "power was lost",
}


class Unsent(Exception):
    """A line of the script is none, or a file can't be read: nothing is sent."""


class Unfit(Exception):
    """A package can't be sent. It says what is printed behind `send`."""


class Ended(Exception):
    """The other side ended before it answered."""


# Frames.


def words(*numbers):
    return struct.pack(f"<{len(numbers)}I", *numbers)


def frame(body):
    return words(len(body)) + body


def numbered(number, message):
    return words(number) + message


def number_of(body):
    return struct.unpack_from("<I", body)[0]


def read_frame(stream):
    """The body of the next frame, or None where there is no whole one."""
    head = stream.read(4)
    if len(head) < 4:
        return None
    size = struct.unpack("<I", head)[0]
    body = stream.read(size) if FEWEST <= size <= MOST else b""
    return body if body and len(body) == size else None


# The side that asks.


class Client:
    """One request at a time, numbered from 1 on."""

    def __init__(self):
        self.last = 0
        self.request = None

    def ask(self, message):
        """The frame of a request; None while one is open, or once the numbers are used up."""
        if self.request is not None or self.last == LAST_NUMBER:
            return None
        self.last += 1
        self.request = frame(numbered(self.last, message))
        return self.request

    def again(self):
        return self.request

    def take(self, body):
        """Whether the body of a reply closed the open request."""
        if self.request is None or len(body) < 4 or number_of(body) != self.last:
            return False
        self.request = None
        return True


class Line:
    """A way there and back, on which frames are lost and come again."""

    def __init__(self, source, sink, lose=0, repeat=0, seed=0, twice=False, lose_replies=0):
        self.sink = sink
        self.lose, self.repeat = lose, repeat
        self.twice, self.lose_replies, self.received = twice, lose_replies, 0
        self.random = random.Random(seed)
        self.sent = []  # requests that may come again later
        self.waiting = []  # replies that come again
        self.replies = queue.Queue()
        threading.Thread(target=self.listen, args=(source,), daemon=True).start()

    def listen(self, source):
        body = read_frame(source)
        while body is not None:
            self.replies.put(body)
            body = read_frame(source)
        self.replies.put(None)

    def happens(self, percent):
        return self.random.randrange(100) < percent

    def put(self, piece):
        try:
            self.sink.write(piece)
            self.sink.flush()
        except OSError:
            raise Ended from None

    def send(self, piece):
        if self.sent and self.happens(self.repeat):
            self.put(self.random.choice(self.sent))
        self.sent = self.sent[-8:] + [piece]
        if not self.happens(self.lose):
            self.put(piece)
            if self.twice or self.happens(self.repeat):
                self.put(piece)

    def receive(self):
        """The body of a reply, or None where none came in time."""
        if self.waiting:
            return self.waiting.pop()
        try:
            body = self.replies.get(timeout=PATIENCE)
        except queue.Empty:
            return None
        if body is None:
            self.replies.put(None)
            raise Ended
        if self.happens(self.repeat):
            self.waiting.append(body)
        self.received += 1
        is_lost = self.lose_replies and self.received % self.lose_replies == 0
        return None if is_lost or self.happens(self.lose) else body


class Caller:
    """The agent's calls, each with its status and its results."""

    def __init__(self, line):
        self.line = line
        self.client = Client()

    def call(self, function, arguments=b""):
        self.line.send(self.client.ask(words(function) + arguments))
        while True:
            body = self.line.receive()
            if body is None:
                self.line.send(self.client.again())
            elif self.client.take(body):
                return struct.unpack_from("<i", body, 4)[0], body[8:]


# Packages.


def judge_header(package):
    if package.startswith(CAPSULE):
        raise Unfit("bad-package a capsule: this client sends packages alone, and `fip package` makes one of it")
    if len(package) < 16:
        raise Unfit("bad-package short-header")
    name, serial = struct.unpack_from("<II", package)
    if name != PACKAGE_NAME:
        raise Unfit("bad-package bad-name")
    if serial == 0:
        raise Unfit("bad-package zero-serial")


def table_of(package):
    """The type, the offset and the size of each entry before the end marker."""
    for index in itertools.count():
        entry = package[16 + 40 * index : 56 + 40 * index]
        if len(entry) < 40:
            raise Unfit(f"bad-package no-end {index}")
        name, offset, size = struct.unpack_from("<16sQQ", entry)
        if not any(name):
            return
        if index == MOST_ENTRIES:
            raise Unfit("bad-package too-many")
        yield name, offset, size


def entries_of(package):
    """The payload of each type, in the order of the table."""
    judge_header(package)
    places = {}
    for index, (name, offset, size) in enumerate(table_of(package)):
        if name in places:
            raise Unfit(f"bad-package duplicate {index}")
        places[name] = slice(offset, offset + size)
    for index, place in enumerate(places.values()):
        if place.stop > len(package):
            raise Unfit(f"bad-package beyond {index}")
    return {name: package[place] for name, place in places.items()}


def slots_of(call):
    """The type of each image of the layout and the bytes of its slot, by the agent's directory."""
    status, handle = call(OPEN, type_of("dir") + words(0))
    if status:
        raise Unfit(STATUSES[status])
    _, results = call(READ, handle + words(ROOM))
    call(COMMIT, handle + words(0, 0))
    _, _, count, size, _ = struct.unpack_from("<5I", results)  # the total, and the directory's header
    return dict(struct.unpack_from("<16sI", results, 20 + size * i) for i in range(count))


def images_of(entries, slots):
    """The payload of each image of the layout, in its order."""
    for name, room in slots.items():
        if name not in entries:
            raise Unfit(f"missing {uuid.UUID(bytes=name)}")
        if len(entries[name]) > room:
            raise Unfit(f"too-large {uuid.UUID(bytes=name)}")
    return {name: entries[name] for name in slots}


def write_image(call, name, payload, request):
    """An open, the writes and a commit, up to the first that isn't done: its status."""
    status, handle = call(OPEN, name + words(1))
    for at in range(0, len(payload), ROOM):
        status = status or call(WRITE, handle + payload[at : at + ROOM])[0]
    return status or call(COMMIT, handle + words(request, 0))[0]


def install(call, images, request):
    """A begin, the images and an end. What was refused, or None; the staging is cancelled then."""
    status, _ = call(BEGIN, words(0, 0))
    if status:
        return f"begin {STATUSES[status]}"
    for name, payload in images.items():
        status = write_image(call, name, payload, request)
        if status:
            call(CANCEL)
            return STATUSES[status]
    status, _ = call(END)
    if status:
        call(CANCEL)
        return f"end {STATUSES[status]}"
    return None


def send(call, package, request):
    """Judges a package, and then installs it. What is printed behind `send`."""
    try:
        entries = entries_of(package)
        images = images_of(entries, slots_of(call))
    except Unfit as fault:
        return str(fault)
    refused = install(call, images, request)
    return refused or f"SUCCESS images={len(images)} skipped={len(entries) - len(images)}"


# Scripts.


def spelled(word, form, what):
    if not re.fullmatch(form, word):
        raise ValueError(f"{word[:40]!r} is no {what}")
    return word


def type_of(name):
    form = "[0-9a-fA-F]{8}(-[0-9a-fA-F]{4}){3}-[0-9a-fA-F]{12}"
    return uuid.UUID(spelled(NAMES.get(name, name), form, "name of an image")).bytes


def number_in(word, most=LAST_NUMBER):
    number = int(spelled(word, "0|[1-9][0-9]{0,9}", "number"))
    if number > most:
        raise ValueError(f"{number} is above {most}")
    return number


def bytes_in(word):
    data = bytes.fromhex(spelled(word, "-|([0-9a-fA-F]{2})+", "row of bytes").removeprefix("-"))
    if len(data) > ROOM:
        raise ValueError(f"a write has at most {ROOM} bytes here")
    return data


def contents_of(word):
    with open(spelled(word, "[!-~]{1,255}", "name of a file"), "rb") as file:
        return file.read()


def digits(data):
    return data.hex() or "-"


def request_of(line):
    """The function and the arguments that a line asks for; of a send its package and its acceptance request."""
    match line.split(" "):
        case ["begin"]:
            return BEGIN, words(0, 0)
        case [word] if word in SIMPLE:
            return SIMPLE[word], b""
        case ["open", name, "r" | "w" as way]:
            return OPEN, type_of(name) + words("rw".index(way))
        case ["write", handle, data]:
            return WRITE, words(number_in(handle)) + bytes_in(data)
        case ["read", handle, room]:
            return READ, words(number_in(handle), number_in(room, ROOM))
        case ["commit", handle, "now" | "trial" as request]:
            return COMMIT, words(number_in(handle), REQUESTS.index(request), 0)
        case ["accept", name]:
            return ACCEPT, type_of(name)
        case ["send", file, "now" | "trial" as request]:
            return SEND, (contents_of(file), REQUESTS.index(request))
        case ["begin", *_] | ["send", _, _, "partial"]:
            raise ValueError("serve has no partial update")
        case ["boot" | "show" | "cut", *_]:
            raise ValueError("serve has no such call")
    raise ValueError("this is no line of a script")


def steps_of(script):
    """Of each line that is a call its number, its word, its function and its arguments."""
    steps = []
    for number, line in enumerate(script.split("\n"), 1):
        if line and not line.startswith("#"):
            try:
                steps.append((number, line.split(" ")[0], *request_of(line)))
            except (OSError, ValueError) as fault:
                raise Unsent(f"line {number}, {line[:80]!r}: {fault}") from None
    return steps


def text_of(function, status, results):
    """What is printed behind the word of a call."""
    if status:
        return STATUSES[status]
    if function == DISCOVER:
        major, minor, state, count, *functions = struct.unpack(f"<{len(results) // 4}I", results)
        assert count == len(functions)
        return f"{major}.{minor} {STATES[state]} {','.join(map(str, functions))}"
    if function == OPEN:
        return f"SUCCESS handle={struct.unpack('<I', results)[0]}"
    if function == READ:
        return f"SUCCESS total={struct.unpack_from('<I', results)[0]} {digits(results[4:])}"
    return "SUCCESS"


def line_of(call, word, function, arguments):
    """What a line of a script prints."""
    if function is SEND:
        return f"send {send(call, *arguments)}"
    return f"{word} {text_of(function, *call(function, arguments))}"


def started(fwu, flash):
    try:
        return subprocess.Popen([fwu, flash, "serve"], stdin=subprocess.PIPE, stdout=subprocess.PIPE)
    except OSError as fault:
        raise Unsent(fault) from None


def complain(text):
    print(f"serve_client.py: {text}", file=sys.stderr)


def serve(options, steps):
    """Runs the program, and does the script's lines. The status of the program, which isn't 0 where a line has no reply."""
    program = started(options.fwu, options.flash)
    line = Line(
        program.stdout, program.stdin, options.lose, options.repeat, options.seed, options.twice, options.lose_replies
    )
    caller = Caller(line)
    unanswered = ""
    try:
        for number, *step in steps:
            print(line_of(caller.call, *step), flush=True)
    except Ended:
        unanswered = f"no reply to line {number}, "
    with contextlib.suppress(OSError):
        program.stdin.close()
    status = program.wait()
    if status or unanswered:
        complain(f"{unanswered}serve ended with {status}: {ENDS.get(status, 'is it fwu?')}")
    return status or (1 if unanswered else 0)


class Writer:
    """Writes the calls as lines of a script. Each is taken to succeed, and an open to give handle 1."""

    def call(self, function, arguments=b""):
        print(script_line(function, arguments))
        return 0, words(1) if function == OPEN else b""


def script_line(function, arguments):
    """The line of a script that makes the call of a request."""
    if function == OPEN:
        return f"open {uuid.UUID(bytes=arguments[:16])} {'rw'[arguments[16]]}"
    if function == WRITE:
        return f"write {number_of(arguments)} {digits(arguments[4:])}"
    if function == READ:
        return "read {} {}".format(*struct.unpack("<II", arguments))
    if function == COMMIT:
        handle, request, _ = struct.unpack("<III", arguments)
        return f"commit {handle} {REQUESTS[request]}"
    if function == ACCEPT:
        return f"accept {uuid.UUID(bytes=arguments)}"
    return next(word for word, simple in SIMPLE.items() if simple == function)


def write_script(steps):
    """Prints the script of the same calls, behind a boot."""
    print("boot")
    for number, _, function, arguments in steps:
        if function is not SEND:
            print(script_line(function, arguments))
            continue
        try:
            package, request = arguments
            install(Writer().call, entries_of(package), request)
        except Unfit as fault:
            print(f"# line {number}: {fault}")
    return 0


def options_of(arguments):
    parser = argparse.ArgumentParser(usage="serve_client.py [OPTIONS] FWU FLASH | --script")
    parser.add_argument("--lose", type=int, default=0, metavar="L")
    parser.add_argument("--repeat", type=int, default=0, metavar="R")
    parser.add_argument("--twice", action="store_true")
    parser.add_argument("--lose-replies", type=int, default=0, metavar="N")
    parser.add_argument("--seed", type=int, default=0)
    parser.add_argument("fwu")
    parser.add_argument("flash")
    return parser.parse_args(arguments)


def main(arguments):
    options = None if arguments == ["--script"] else options_of(arguments)
    try:
        steps = steps_of(sys.stdin.buffer.read().decode("ascii", "replace"))
        return serve(options, steps) if options else write_script(steps)
    except Unsent as fault:
        complain(fault)
        return NOTHING_SENT


if __name__ == "__main__":
    sys.exit(main(sys.argv[1:]))
