#!/usr/bin/env python3
"""Prints the line of `fwu - soak SEED N` by a model of its own, and by no program of this repository.

    soak_model.py SEED N

The model has the bytes of a flash, as docs/FORMATS.md has them, the calls of docs/MODEL.md, and the erases and programs of each
call in their order:

- metadata is stored by an erase and a program of the first replica, and then of the second;
- a boot repairs the replica that differs by an erase and a program of it, and then it programs one mark of a trial, or erases a
  block and programs a record of the counter;
- an image is written block by block: an erase, a program of the whole granules, and a program of the rest, 0xFF behind it;
- an end erases the marks of trials, where there are some, and stores metadata;
- a begin stores metadata where the other bank isn't invalid, an acceptance where the image wasn't accepted, a way back always.
"""
import hashlib
import struct
import sys
from dataclasses import dataclass

from make_flash import ACCEPTED, BLOCK, INVALID, ROWS, VALID, flash, manifest, metadata, record

STARTS = (0, 1, 3)  # where the images of a bank begin, in blocks
BANKS = (8, 15)
GRANULE = 16
TRIALS, MARKS, RECORDS = 3, 4, (5, 6)


class Lost(Exception):
    """Power was lost."""


class Device:
    def __init__(self, image):
        self.image = bytearray(image)
        self.armed = None  # at which erase or program from here on, and after how many bytes of it

    def write(self, at, data):
        """An erase or a program."""
        if self.armed:
            operation, count = self.armed
            if operation == 1:
                self.armed = None
                self.image[at : at + len(data[:count])] = data[:count]
                raise Lost
            self.armed = (operation - 1, count)
        self.image[at : at + len(data)] = data

    def erase(self, block):
        self.write(BLOCK * block, b"\xff" * BLOCK)

    def replace(self, block, data):
        self.erase(block)
        self.write(BLOCK * block, padded(data))

    def block(self, number):
        return bytes(self.image[BLOCK * number : BLOCK * (number + 1)])

    def marks(self, block, limit):
        text = self.block(block)
        for mark in range(limit):
            if text[GRANULE * mark : GRANULE * (mark + 1)] == b"\xff" * GRANULE:
                return mark
        return limit


def padded(data):
    return data + b"\xff" * (-len(data) % GRANULE)


def number_at(data, at):
    return struct.unpack_from("<I", data, at)[0]


@dataclass
class Meta:
    active: int
    previous: int
    states: list
    bits: list

    def text(self):
        return metadata(ROWS, self.active, self.previous, self.states, self.bits)


def read_meta(block):
    """The metadata in a block, if that is some."""
    bits = [[number_at(block, 40 + 80 * image + 32 + 24 * bank + 16) for image in range(3)] for bank in (0, 1)]
    meta = Meta(number_at(block, 8), number_at(block, 12), list(block[24:26]), bits)
    return meta if meta.active < 2 and block.startswith(meta.text()) else None


def read_record(block):
    value = number_at(block, 8)
    return value if block.startswith(record(value)) else None


class Flash:
    """A flash with the session on it: the bank that was booted, or none where power is off."""

    def __init__(self, image):
        self.device = Device(image)
        self.booted = None
        self.counter = 0
        self.meta = None

    def store(self):
        for replica in (1, 2):
            self.device.replace(replica, self.meta.text())

    def version(self, bank):
        """The security version of the package in a bank, if that is complete and permitted."""
        image, first = self.device.image, BANKS[bank]
        text = bytes(image[BLOCK * first : BLOCK * first + 160])
        if hashlib.sha256(text[:128]).digest() != text[128:]:
            return None
        for row, start in enumerate(STARTS[1:]):
            place = 16 + 56 * row
            at = BLOCK * (first + start)
            data = image[at : at + number_at(text, place + 16)]
            if hashlib.sha256(data).digest() != text[place + 24 : place + 56]:
                return None
        version = number_at(text, 8)
        return version if version >= self.counter else None

    def load(self):
        """The metadata that decides, once the other replica was repaired."""
        first, second = read_meta(self.device.block(1)), read_meta(self.device.block(2))
        self.meta = first or second
        if first is None:
            self.device.replace(1, self.meta.text())
        elif first != second:
            self.device.replace(2, self.meta.text())

    def raise_counter(self, version):
        first, second = (read_record(self.device.block(block)) for block in RECORDS)
        is_second = first is not None and (second is None or second < first)
        self.device.replace(RECORDS[is_second], record(version))
        self.counter = version

    def boot(self):
        """The bank that is started, with its version, and whether it is a fallback."""
        self.booted = None
        values = [read_record(self.device.block(block)) for block in RECORDS]
        self.counter = max([self.device.marks(MARKS, 223)] + [value for value in values if value is not None])
        trials = self.device.marks(TRIALS, 3)
        self.load()
        bank, state = self.meta.active, self.meta.states[self.meta.active]
        version = self.version(bank) if state == ACCEPTED or state == VALID and trials < 3 else None
        if version is None:
            bank = self.meta.previous
            assert bank != self.meta.active and self.meta.states[bank] == ACCEPTED
            version = self.version(bank)
            assert version is not None
        elif state == VALID:
            self.device.write(BLOCK * TRIALS + GRANULE * trials, bytes(GRANULE))
        elif version > self.counter:
            self.raise_counter(version)
        self.booted = bank
        return bank, version, bank != self.meta.active

    def is_elsewhere(self):
        """Whether the bank that was booted isn't the active one."""
        return self.booted != self.meta.active

    def is_on_trial(self):
        return self.meta.states[self.meta.active] == VALID

    def write_image(self, first, data):
        for at in range(0, len(data), BLOCK):
            piece = data[at : at + BLOCK]
            whole = len(piece) - len(piece) % GRANULE
            place = BLOCK * first + at
            self.device.erase(place // BLOCK)
            if whole:
                self.device.write(place, piece[:whole])
            if piece[whole:]:
                self.device.write(place + whole, padded(piece[whole:]))

    def send(self, images, security, is_trial):
        """Whether the images are installed."""
        if self.is_on_trial() or self.is_elsewhere():
            return False
        bank = 1 - self.meta.active
        if self.meta.states[bank] != INVALID:
            self.meta.states[bank], self.meta.bits[bank] = INVALID, [0] * 3
            self.store()
        for start, data in zip(STARTS, images):
            self.write_image(BANKS[bank] + start, data)
        if security < self.counter:
            return False
        if self.device.block(TRIALS) != b"\xff" * BLOCK:
            self.device.erase(TRIALS)
        self.meta.states[bank], self.meta.bits[bank] = (VALID, [0] * 3) if is_trial else (ACCEPTED, [1] * 3)
        self.meta.active, self.meta.previous = bank, self.meta.active
        self.store()
        return True

    def accept(self, image):
        bank = self.meta.active
        if self.is_elsewhere() or self.meta.bits[bank][image]:
            return
        self.meta.bits[bank][image] = 1
        if all(self.meta.bits[bank]):
            self.meta.states[bank] = ACCEPTED
        self.store()

    def go_back(self):
        active, previous = self.meta.active, self.meta.previous
        if not self.is_on_trial() and not self.is_elsewhere():
            return
        if previous == active or self.meta.states[previous] != ACCEPTED or self.version(previous) is None:
            return
        self.meta.active, self.meta.previous = previous, active
        self.store()


@dataclass
class Round:
    """What a round draws."""

    sizes: tuple
    security: int
    is_trial: bool
    cut: tuple  # at which erase or program, and after how many bytes of it, or none
    ending: int


class Draws:
    def __init__(self, seed):
        self.register = seed

    def draw(self, n):
        self.register = (self.register * 1103515245 + 12345) % 2**32
        return self.register // 65536 % 32768 % n

    def sizes(self):
        return self.draw(8193), self.draw(16385)

    def round(self, number):
        sizes = self.sizes()
        security = min(223, 1 + number // 8) - self.draw(2)
        is_trial = self.draw(4) != 0
        operation = self.draw(32)
        cut = (operation, self.draw(4097)) if operation else None
        return Round(sizes, security, is_trial, cut, self.draw(4))


def images_of(number, sizes):
    """The images of a package behind its manifest."""
    return [bytes((7 * j + i + number) % 256 for j in range(size)) for i, size in enumerate(sizes, 1)]


def all_images(number, sizes, security):
    """The images of a package, its manifest first."""
    images = images_of(number, sizes)
    return [manifest(security, [(name, number, data) for (name, _), data in zip(ROWS[1:], images)])] + images


class Soak:
    def __init__(self, seed):
        self.draws = Draws(seed)
        self.flash = Flash(flash(ROWS, images_of(0, self.draws.sizes()), [0, 0], 1, 0))
        self.turns = self.boots = self.losses = self.fallbacks = self.sends = 0
        self.last = (0, 0, 0)

    def turn(self, call):
        """A call, which isn't done where power is off. What it answers, or none."""
        self.turns += 1
        if self.flash.booted is None:
            return None
        return self.powered(call)

    def powered(self, call):
        try:
            return call()
        except Lost:
            self.losses += 1
            self.flash.booted = None
            return None

    def boot(self):
        self.turns += 1
        answer = self.powered(self.flash.boot)
        if answer is None:
            return
        bank, version, is_fallback = answer
        self.boots += 1
        self.fallbacks += is_fallback
        self.last = (bank, version, self.flash.counter)

    def cut(self, operation, count):
        self.turns += 1
        self.flash.device.armed = (operation, count)

    def send(self, number, sizes, security, is_trial):
        images = all_images(number, sizes, security)
        if self.turn(lambda: self.flash.send(images, security, is_trial)):
            self.sends += 1

    def end_round(self, ending):
        if ending == 2:
            for image in range(3):
                self.turn(lambda image=image: self.flash.accept(image))
        if ending == 3:
            self.turn(self.flash.go_back)
        if ending != 0:
            self.boot()

    def round(self, number):
        drawn = self.draws.round(number)
        if drawn.cut:
            self.cut(*drawn.cut)
        self.send(number, drawn.sizes, drawn.security, drawn.is_trial)
        self.boot()
        self.end_round(drawn.ending)

    def line(self, rounds):
        counts = f"turns={self.turns} boots={self.boots} losses={self.losses} fallbacks={self.fallbacks} sends={self.sends}"
        bank, version, counter = self.last
        return f"soak rounds={rounds} {counts} bank={bank} version={version} counter={counter}"


def line_of(seed, rounds):
    soak = Soak(seed)
    soak.boot()
    for number in range(1, rounds + 1):
        soak.round(number)
    return soak.line(rounds)


def main(words):
    print(line_of(*(int(word) for word in words)))


if __name__ == "__main__":
    main(sys.argv[1:])
