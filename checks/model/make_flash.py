#!/usr/bin/env python3
"""Writes the image of a flash, from the formats in docs/FORMATS.md alone.

    make_flash.py FILE [--change | --large N]

Without options: 22 blocks of 4096 bytes, two banks, the images manifest (1 block), tb-fw (2 blocks) and nt-fw (4
blocks). Bank 0 is active and accepted, of security version 1, with the images `abc` and `hello`; bank 1 is invalid.
Block 4 has one counter mark. With --change one byte of the image `abc` differs from what the manifest says.
With --large N the bank has a manifest and N images of 1 MiB each (N from 1 to 15), for measurements.
"""
import hashlib
import struct
import sys
import uuid
import zlib

BLOCK = 4096
NAMES = {
    "manifest": "4657554d-414e-4946-4553-540000000001",
    "tb-fw": "5ff9ec0b-4d22-3e4d-a544-c39d81c73f0a",
    "nt-fw": "d6d0eea7-fcea-d54b-9782-9934f234b6e4",
}
ROWS = [("manifest", 1), ("tb-fw", 2), ("nt-fw", 4)]
INVALID, VALID, ACCEPTED = 0xFF, 0xFE, 0xFC


def guid(name):
    return uuid.UUID(NAMES.get(name, name)).bytes


def sealed(body):
    """The CRC-32 of the bytes, and the bytes."""
    return struct.pack("<I", zlib.crc32(body)) + body


def layout(rows, banks):
    size = 32 + 24 * len(rows)
    body = struct.pack("<IIII", 0x4C555746, banks, len(rows), size) + bytes(12)
    for name, slots in rows:
        body += guid(name) + struct.pack("<II", slots, 0)
    return sealed(body)


def image_entries(rows, bits):
    text = b""
    for i, (name, _) in enumerate(rows):
        text += guid(name) + bytes(16)
        for bank in bits:
            text += guid(name) + struct.pack("<II", bank[i], 0)
    return text


def metadata(rows, active, previous, states, bits):
    banks = len(states)
    entry = 32 + 24 * banks
    body = struct.pack("<IIIIHH", 2, active, previous, 40 + entry * len(rows), 0x20, 0)
    body += bytes(states) + b"\xff" * (4 - banks)
    body += struct.pack("<IBBHHH", 0, banks, 0, len(rows), entry, 24)
    return sealed(body + image_entries(rows, bits))


def metadata_1(rows, active, previous, bits):
    """Metadata of version 1."""
    return sealed(struct.pack("<III", 1, active, previous) + image_entries(rows, bits))


def first_bits(rows, banks):
    return [[1] * len(rows)] + [[0] * len(rows)] * (banks - 1)


def first_metadata(rows, banks):
    """Bank 0 is active and accepted, the others are invalid."""
    return metadata(rows, 0, 0, [ACCEPTED] + [INVALID] * (banks - 1), first_bits(rows, banks))


def first_metadata_1(rows, banks):
    """The same in version 1."""
    return metadata_1(rows, 0, 0, first_bits(rows, banks))


def record(value):
    """A record of the counter."""
    return sealed(struct.pack("<IIII", 0x43555746, value, 0, 32) + bytes(12))


def manifest(security, rows):
    form = 1 if security <= 223 else 2
    text = struct.pack("<IIII", 0x464D5746, form, security, len(rows))
    for name, version, image in rows:
        text += guid(name) + struct.pack("<II", len(image), version) + hashlib.sha256(image).digest()
    return text + hashlib.sha256(text).digest()


def flash(rows, images, versions, security, counter):
    """The image of a flash of two banks: bank 0 accepted, with these images, bank 1 invalid."""
    total = sum(slots for _, slots in rows)
    image = bytearray(b"\xff" * BLOCK * (8 + 2 * total))

    def put(block, data):
        image[BLOCK * block : BLOCK * block + len(data)] = data

    put(0, layout(rows, 2))
    for replica in (1, 2):
        put(replica, first_metadata(rows, 2))
    for mark in range(counter):
        image[BLOCK * 4 + 16 * mark : BLOCK * 4 + 16 * mark + 16] = bytes(16)
    contents = [(name, version, data) for (name, _), version, data in zip(rows[1:], versions, images)]
    start = 8
    for (_, slots), data in zip(rows, [manifest(security, contents)] + images):
        put(start, data)
        start += slots
    return image


def small():
    return flash(ROWS, [b"abc", b"hello"], [7, 9], 1, 1)


def large(count):
    rows = [("manifest", 1)] + [(str(uuid.UUID(int=0xABC000 + i)), 256) for i in range(count)]
    images = [hashlib.shake_128(bytes([i])).digest(256 * BLOCK) for i in range(count)]
    return flash(rows, images, [1] * count, 1, 1)


def main(words):
    name, options = words[0], words[1:]
    image = large(int(options[1])) if options[:1] == ["--large"] else small()
    if options == ["--change"]:
        image[BLOCK * 9] ^= 1
    with open(name, "wb") as file:
        file.write(image)


if __name__ == "__main__":
    main(sys.argv[1:])
