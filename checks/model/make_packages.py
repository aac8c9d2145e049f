#!/usr/bin/env python3
"""The packages and capsules of the rows in crates/rows_prog/data, from the formats in docs/FORMATS.md alone.

    make_packages.py FOLDER       writes each file into a folder
"""
import os
import struct
import sys
import uuid

from make_flash import guid, manifest

SOC_FW = "47d4086d-4cfe-9846-9b95-2950cbbd5a00"
NAMES = ("manifest", "tb-fw", "nt-fw")


def pattern(count):
    """The bytes of a longer image."""
    return bytes((7 * j + 2) % 256 for j in range(count))


def manifest_of(security, tb_fw=b"abc", nt_fw=b"hello"):
    return manifest(security, [("tb-fw", 7, tb_fw), ("nt-fw", 9, nt_fw)])


def table(places):
    """The header and the table of a package: each entry a name, an offset and a size; and the end's offset."""
    text = struct.pack("<IIQ", 0xAA640001, 0x12345678, 0)
    for name, offset, size in places[:-1]:
        text += guid(name) + struct.pack("<QQQ", offset, size, 0)
    return text + bytes(16) + struct.pack("<QQQ", places[-1], 0, 0)


def package(parts, align=1):
    """A package of these names and payloads, one behind the other, each from a multiple of the alignment on."""
    at = 16 + 40 * (len(parts) + 1)
    places, body = [], bytes(-at % align)
    for name, data in parts:
        places.append((name, at + len(body), len(data)))
        body += data + bytes(-len(data) % align)
    return table(places + [at + len(body)]) + body


def of_three(security, tb_fw=b"abc", nt_fw=b"hello", text=None):
    text = text or manifest_of(security, tb_fw, nt_fw)
    return package([("manifest", text), ("tb-fw", tb_fw), ("nt-fw", nt_fw)])


def in_capsules(name):
    """The UUID as capsules have it."""
    return uuid.UUID(bytes=guid(name)).bytes_le


CAPSULE_TYPE = uuid.UUID("6dcbd5ed-e82d-4c44-bda1-7194199ad92a").bytes_le


def capsule_header(header, flags, size):
    return CAPSULE_TYPE + struct.pack("<III", header, flags, size)


def item(name, data, version=2, index=1, vendor=b""):
    text = struct.pack("<I", version) + in_capsules(name) + struct.pack("<BBBB", index, 0, 0, 0)
    text += struct.pack("<II", len(data), len(vendor))
    text += bytes(8) if version >= 2 else b""
    text += bytes(8) if version >= 3 else b""
    return text + data + vendor


def capsule(items, drivers=(), header=28, gap=0, flags=0):
    """A capsule of these items, with gaps before each of them."""
    at = 8 + 8 * (len(drivers) + len(items))
    places, body = [], b""
    for text in [*drivers, *items]:
        body += bytes(gap) + text
        places.append(at + len(body) - len(text))
    text = struct.pack("<IHH", 1, len(drivers), len(items))
    text += b"".join(struct.pack("<Q", place) for place in places) + body
    return capsule_header(header, flags, header + len(text)) + bytes(header - 28) + text


PARTS_2 = [("manifest", manifest_of(2)), ("tb-fw", b"abc"), ("nt-fw", b"hello")]

# As this program writes them.
CAPSULE_2 = capsule([item(name, data, index=n + 1) for n, (name, data) in enumerate(PARTS_2)])

# A driver, items of each version in another order with gaps and vendor's code, one of a type that the layout lacks, and bytes
# behind.
OTHER_CAPSULE_2 = (
    capsule(
        [
            item("nt-fw", b"hello", version=3, vendor=b"code"),
            item(SOC_FW, b"xyz", version=1),
            item("manifest", manifest_of(2), version=1, index=9),
            item("tb-fw", b"abc", version=2, vendor=b"c"),
        ],
        drivers=[b"driver"],
        header=32,
        gap=3,
    )
    + b"behind"
)


EXTRA = package(
    [("nt-fw", b"hello"), (SOC_FW, b"xyz"), ("tb-fw", b"abc"), (str(uuid.UUID(int=7)), b""), ("manifest", manifest_of(2))]
)

LONG = 4145

# Packages of some images: of the manifest alone, and of a changed image with its manifest.
CHANGED = package([("manifest", manifest_of(2, tb_fw=b"abd")), ("tb-fw", b"abd")])
CAPSULE_OF_ONE = capsule([item("manifest", manifest_of(2))])


def of_one(text):
    return package([("manifest", text)])


FILES = {
    "a.fip": package([("tb-fw", b"hello")]),
    "m0.fip": of_one(manifest_of(0)),
    "m2.fip": of_one(manifest_of(2)),
    "m5.fip": of_one(manifest_of(5)),
    "e5.fip": of_one(manifest_of(5, tb_fw=b"")),
    "t2.fip": CHANGED,
    "soc.fip": package([(SOC_FW, b"xyz")]),
    "m2.cap": CAPSULE_OF_ONE,
    "p0.fip": of_three(0),
    "p1.fip": of_three(1),
    "p2.fip": of_three(2),
    "p5.fip": of_three(5),
    "p2x.fip": of_three(2, tb_fw=b"abd", text=manifest_of(2)),
    "long.fip": of_three(2, nt_fw=pattern(LONG)),
    "empty.fip": of_three(2, tb_fw=b""),
    "extra.fip": EXTRA,
    "p2.cap": CAPSULE_2,
    "other.cap": OTHER_CAPSULE_2,
}

FRONT = 16 + 40 * 4  # the header and the table of a package of three


def main(words):
    for name, data in FILES.items():
        with open(os.path.join(words[0], name), "wb") as file:
            file.write(data)


if __name__ == "__main__":
    main(sys.argv[1:])
