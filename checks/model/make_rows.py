#!/usr/bin/env python3
"""The bytes of the rows in crates/rows_prog/data, from the formats in docs/FORMATS.md alone; check_rows.py compares them.

They are the packages and capsules of make_packages.py, and those that are listed below: flashes of 22 blocks, most of them the
small one of make_flash.py with a part changed, packages, lists of digests, and records of the counter.
"""
import hashlib
import struct
import uuid
import zlib

from make_flash import BLOCK, ROWS, flash, guid, record, small
from make_packages import manifest_of

# The bytes of the layout and of metadata of version 2, by which their checksums go.
LAYOUT_SIZE = 104
METADATA_SIZE = 280

MARKED = small()


def word(number):
    return struct.pack("<I", number)


def put(image, *parts):
    """A copy of the image with other bytes at places of it: a place, its bytes, a place, .."""
    image = bytearray(image)
    for at, data in zip(parts[::2], parts[1::2]):
        image[at : at + len(data)] = data
    return image


def renewed(image, at, size):
    """The same with the checksum of what stands at a place, of so many bytes."""
    return put(image, at, word(zlib.crc32(image[at + 4 : at + size])))


def layout_with(*parts):
    return renewed(put(MARKED, *parts), 0, LAYOUT_SIZE)


def metadata_with(*parts, size=METADATA_SIZE):
    """The same in both replicas. The places are those in the metadata."""
    image = MARKED
    for start in (BLOCK, 2 * BLOCK):
        places = [part + start if number % 2 == 0 else part for number, part in enumerate(parts)]
        image = renewed(put(image, *places), start, size)
    return image


def on_trial():
    """Version 2 in bank 1, which is active and on trial."""
    image = metadata_with(8, word(1), 25, b"\xfe")
    return put(image, 15 * BLOCK, manifest_of(2), 16 * BLOCK, b"abc", 18 * BLOCK, b"hello")


def manifest_of_form_1(version):
    """A manifest of form 1, of any version."""
    text = put(manifest_of(1)[:-32], 8, word(version))
    return text + hashlib.sha256(text).digest()


FLASHES = {
    "formatted.img": flash(ROWS, [b"abc", b"hello"], [7, 9], 1, 0),
    "marked.img": MARKED,
    "trial.img": on_trial(),
    "layout-not-renewed.img": put(MARKED, 8, word(3)),
    "layout-magic.img": put(MARKED, 4, word(0)),
    "layout-one-image.img": layout_with(12, word(1)),
    "layout-five-banks.img": layout_with(8, word(5)),
    "layout-slot.img": layout_with(72, word(257)),
    "layout-same-type.img": layout_with(80, guid("tb-fw")),
    "layout-beyond.img": layout_with(96, word(256)),
    "layout-17-images.img": layout_with(12, word(17)),
    "layout-size.img": layout_with(16, word(105)),
    "layout-one-bank.img": layout_with(8, word(1)),
    "layout-zeros.img": layout_with(20, word(1)),
    "layout-no-slot.img": layout_with(48, word(0)),
    "layout-behind-slot.img": layout_with(52, word(1)),
    "layout-behind.img": put(MARKED, LAYOUT_SIZE, b"\x00"),
    "metadata-version.img": metadata_with(4, word(3)),
    "metadata-size.img": metadata_with(16, word(281), size=281),
    "metadata-accepted.img": metadata_with(88, word(2)),
    "metadata-state.img": metadata_with(26, b"\xfc"),
    "metadata-version-0.img": metadata_with(4, word(0)),
    "metadata-active.img": metadata_with(8, word(2)),
    "metadata-previous.img": metadata_with(12, word(2)),
    "metadata-no-state.img": metadata_with(24, b"\xfd"),
    "metadata-zeros.img": metadata_with(56, word(1)),
    "metadata-behind-bit.img": metadata_with(92, word(1)),
    "metadata-valid.img": metadata_with(25, b"\xfe"),
    "metadata-behind.img": put(MARKED, BLOCK + 300, b"\x00"),
    "no-firmware.img": metadata_with(8, word(1), 12, word(1), 25, b"\xfe"),
    "manifest-form.img": put(MARKED, 8 * BLOCK, manifest_of_form_1(224)),
    "two-marks.img": put(MARKED, 4 * BLOCK + 16, bytes(16)),
    "record-above.img": put(MARKED, 5 * BLOCK, record(2)),
}


def header(serial, flags):
    return struct.pack("<IIQ", 0xAA640001, serial, flags)


def entry(name, offset, size, flags=0):
    return guid(name) + struct.pack("<QQQ", offset, size, flags)


def numbered(number):
    return str(uuid.UUID(int=number))


PACKAGES = {
    # Under another serial number, with flags.
    "flags.fip": header(0x01020304, 5) + entry("tb-fw", 96, 5, 7) + bytes(40) + b"hello",
    # 65 entries.
    "many.fip": header(0x12345678, 0) + b"".join(entry(numbered(n), 0, 0) for n in range(1, 66)) + bytes(40),
}


def list_of(*versions):
    """The digests of the manifests of these security versions."""
    return "".join(hashlib.sha256(manifest_of(version)).hexdigest() + "\n" for version in versions).encode()
