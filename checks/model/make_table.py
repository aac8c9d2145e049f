#!/usr/bin/env python3
"""Writes GUID partition tables as docs/FORMATS.md has them, from UEFI's layout alone, and puts a flash into their partitions.

    make_table.py FILE FLASH            a device of 40 blocks: the flash in FLASH (22 blocks) behind a table of four entries
    make_table.py --cases               the tables of crates/vectors/src/tables.rt, as text

A sector is one block of 4096 bytes. The store has blocks 3 to 24, the metadata partitions are blocks 25 and 26.
"""
import struct
import sys
import uuid
import zlib

BLOCK = 4096
BLOCKS = 40
STORE = uuid.UUID("46575553-544f-5245-5041-525400000001").bytes_le
METADATA = uuid.UUID("8a7a84a0-8387-40f6-ab41-a8b9a5a60d23").bytes_le
OTHER = uuid.UUID("0fc63daf-8483-4772-8e79-3d69d8477de4").bytes_le
DISK = uuid.UUID("01020304-0506-0708-090a-0b0c0d0e0f10").bytes_le


def entry(kind, first, last, n):
    unique = uuid.UUID("11111111-2222-3333-4444-5555555555%02x" % (0x55 + n)).bytes_le
    return kind + unique + struct.pack("<QQQ", first, last, 0) + bytes(72)


def entries_of(rows, number=4):
    text = b"".join(entry(kind, first, last, n) for n, (kind, first, last) in enumerate(rows))
    return text + bytes(128 * number - len(text))


def header(
    own,
    other,
    place,
    entries,
    number=4,
    revision=0x10000,
    size=92,
    zero=0,
    entry_size=128,
    name=b"EFI PART",
    first=3,
    last=BLOCKS - 3,
):
    def fields(checksum):
        return (
            name
            + struct.pack("<IIII", revision, size, checksum, zero)
            + struct.pack("<QQQQ", own, other, first, last)
            + DISK
            + struct.pack("<QIII", place, number, entry_size, zlib.crc32(entries))
        )

    return fields(zlib.crc32(fields(0)))


ROWS = [(STORE, 3, 24), (METADATA, 25, 25), (METADATA, 26, 26)]


def both(rows, **changes):
    entries = entries_of(rows)
    primary = {"own": 1, "other": BLOCKS - 1, "place": 2, **changes}
    backup = {"own": BLOCKS - 1, "other": 1, "place": BLOCKS - 2, **changes}
    return header(entries=entries, **primary), header(entries=entries, **backup), entries


CASES = {
    "valid": both(ROWS),
    "revision": both(ROWS, revision=0x10001),
    "size": both(ROWS, size=96),
    "zero field": both(ROWS, zero=1),
    "entry size": both(ROWS, entry_size=256),
    "name": both(ROWS, name=b"EFI PARS"),
    "own place": both(ROWS, own=2),
    "other place": both(ROWS, other=38),
    "entry place": both(ROWS, place=3),
    "no entry": both(ROWS, number=0),
    "too many entries": both(ROWS, number=129),
    "no store": both([(OTHER, 3, 24)] + ROWS[1:]),
    "two stores": both(ROWS + [(STORE, 27, 34)]),
    "one replica": both(ROWS[:2]),
    "three replicas": both(ROWS + [(METADATA, 27, 27)]),
    "no replica": both(ROWS[:1]),
    "store of 7": both([(STORE, 3, 9)] + ROWS[1:]),
    "store of 8": both([(STORE, 3, 10)] + ROWS[1:]),
    "backwards": both([(STORE, 24, 3)] + ROWS[1:]),
    "store at the entries": both([(STORE, 2, 24)] + ROWS[1:]),
    "replica at the last usable block": both([ROWS[0], ROWS[1], (METADATA, 37, 37)]),
    "replica behind it": both([ROWS[0], ROWS[1], (METADATA, 38, 38)]),
    "store and replica share a block": both([ROWS[0], (METADATA, 24, 25), ROWS[2]]),
    "replicas share a block": both([ROWS[0], (METADATA, 25, 26), ROWS[2]]),
    "beyond the device": both([(STORE, 3, 1 << 63)] + ROWS[1:]),
}


def device(flash, table=CASES["valid"]):
    """The flash behind a table, its blocks at their places by the valid one."""
    image = bytearray(b"\xff" * BLOCK * BLOCKS)
    primary, backup, entries = table
    image[BLOCK : BLOCK + 92] = primary
    image[BLOCK * 2 : BLOCK * 2 + len(entries)] = entries
    image[BLOCK * 38 : BLOCK * 38 + len(entries)] = entries
    image[BLOCK * 39 : BLOCK * 39 + 92] = backup
    for block in range(22):
        place = {1: 25, 2: 26}.get(block, 3 + block)
        image[BLOCK * place : BLOCK * (place + 1)] = flash[BLOCK * block : BLOCK * (block + 1)]
    return image


def main(words):
    if words == ["--cases"]:
        for name, (primary, backup, entries) in CASES.items():
            print(name, primary.hex(), backup.hex(), entries.hex().rstrip("0"))
        return
    with open(words[1], "rb") as file:
        image = device(file.read())
    with open(words[0], "wb") as file:
        file.write(image)


if __name__ == "__main__":
    main(sys.argv[1:])
