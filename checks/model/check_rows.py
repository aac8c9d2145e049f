#!/usr/bin/env python3
"""Makes the bytes in the rows of crates/rows_prog/data again, from docs/FORMATS.md alone, and compares them with those there.

    check_rows.py

It prints a line for each file, answer or line that agrees, and of each other one both values; then how many there are. It ends
with status 1 where one differs. The bytes are made by make_flash.py, make_packages.py, make_table.py and make_rows.py; the faults
of bytes that are changed go by first_faults.py, and what a soak prints by soak_model.py.
"""
import io
import os
import re
import struct
import sys
import uuid

sys.dont_write_bytecode = True
HERE = os.path.dirname(os.path.abspath(__file__))
sys.path.append(os.path.join(HERE, ".."))

import first_faults
import make_packages
import make_table
import rows
import serve_model
import soak_model
from check_vectors import Unread, both, each, one
from first_faults import capsule_entries, capsule_number, fault_of
from make_flash import ACCEPTED, BLOCK, ROWS, VALID, first_bits, first_metadata, first_metadata_1, guid, layout, manifest, metadata, record
from make_packages import capsule, item, manifest_of, package
from make_rows import FLASHES, MARKED, PACKAGES, list_of, put
from make_table import METADATA, STORE

DATA = os.path.join(HERE, "..", "..", "crates", "rows_prog", "data")
HELLO = package([("tb-fw", b"hello")])
HELLO_CAPSULE = capsule([item("tb-fw", b"hello")])


def path_of(name):
    return os.path.join(DATA, name)


class Begun(rows.Row):
    """A row up to its first command: the files that it begins with, and what is said of files and printed then."""

    def __init__(self):
        super().__init__(rows.Files())
        self.said, self.printed, self.is_run = [], b"", False

    def finish(self):
        step, self.step = self.step, rows.Step()
        if step.kind in ("is", "has"):
            self.said.append(bytes(step.data))
        elif step.kind == "run":
            self.printed += step.output
            self.is_run = True
        elif step.kind == "file" and not self.is_run:
            self.files.put(step.words[0], bytes(step.data))


def begun(name):
    """Each row of a file of rows, by its name."""
    before = [rows.rows_of(path_of(one))[0] for one in (rows.COMMON, name)]
    for row, lines in rows.rows_of(path_of(name))[1]:
        read = Begun()
        for front in before:
            read.do(front)
        try:
            read.do(lines)
        except rows.Differs:
            pass  # it speaks of a file that a command makes
        yield row, read


TEXTS = {"h.bin": b"hello", "abc.bin": b"abc", "abd.bin": b"abd", "s3.bin": b"xyz", "no.bin": b""}

COMMON = {
    **TEXTS,
    "pattern.bin": make_packages.pattern(256),
    "long.bin": make_packages.pattern(make_packages.LONG),
    **{f"m{version}.bin": manifest_of(version) for version in (0, 1, 2, 5)},
    "long.manifest": manifest_of(2, nt_fw=make_packages.pattern(make_packages.LONG)),
    "empty.manifest": manifest_of(2, tb_fw=b""),
    "empty5.manifest": manifest_of(5, tb_fw=b""),
    "d2.manifest": manifest_of(2, tb_fw=b"abd"),
    "front": make_packages.FILES["p2.fip"][: make_packages.FRONT],
    "front1": make_packages.FILES["m2.fip"][:96],
    **make_packages.FILES,
    "blank.img": b"\xff" * (22 * BLOCK),
    "layout": layout(ROWS, 2),
    "metadata": first_metadata(ROWS, 2),
    "trial.metadata": metadata(ROWS, 1, 0, [ACCEPTED, VALID], first_bits(ROWS, 2)),
    **{name: bytes(FLASHES[name]) for name in ("formatted.img", "marked.img", "trial.img")},
}


def files_of_all_rows():
    yield from each(COMMON, rows.files_before(path_of(rows.COMMON)))


def own_files(name):
    """The files that stand before the first row of a file of rows, without the common ones."""
    return {one: data for one, data in rows.files_before(path_of(name)).items() if one not in COMMON}


HOSTILE = {
    "a layout with a changed byte": FLASHES["layout-not-renewed.img"],
    "a layout without its magic": FLASHES["layout-magic.img"],
    "a layout of one image": FLASHES["layout-one-image.img"],
    "a layout of five banks": FLASHES["layout-five-banks.img"],
    "a layout with a slot of 257 blocks": FLASHES["layout-slot.img"],
    "a layout with a type twice": FLASHES["layout-same-type.img"],
    "a layout beyond the flash": FLASHES["layout-beyond.img"],
    "a layout of 17 images": FLASHES["layout-17-images.img"],
    "a layout of another size": FLASHES["layout-size.img"],
    "a layout of one bank": FLASHES["layout-one-bank.img"],
    "a layout with a number among its zeros": FLASHES["layout-zeros.img"],
    "a layout with a slot of no block": FLASHES["layout-no-slot.img"],
    "a layout with a number behind a slot": FLASHES["layout-behind-slot.img"],
    "a byte behind the layout": FLASHES["layout-behind.img"],
    "metadata of version 3": FLASHES["metadata-version.img"],
    "metadata of another size": FLASHES["metadata-size.img"],
    "metadata with a bit that is none": FLASHES["metadata-accepted.img"],
    "metadata with the state of a bank that is not there": FLASHES["metadata-state.img"],
    "metadata of version 0": FLASHES["metadata-version-0.img"],
    "metadata with an active bank that is not there": FLASHES["metadata-active.img"],
    "metadata with a previous bank that is not there": FLASHES["metadata-previous.img"],
    "metadata with a state that is none": FLASHES["metadata-no-state.img"],
    "metadata with a number among its zeros": FLASHES["metadata-zeros.img"],
    "metadata with a number behind a bit": FLASHES["metadata-behind-bit.img"],
    "metadata of an accepted and of a valid bank": FLASHES["metadata-valid.img"],
    "a byte behind the metadata": FLASHES["metadata-behind.img"],
    "a first replica that is none": put(MARKED, BLOCK, FLASHES["metadata-version.img"][BLOCK : 2 * BLOCK]),
    "an active bank without firmware": FLASHES["no-firmware.img"],
    "a manifest of the first form with a version of the second": FLASHES["manifest-form.img"],
    "two marks of the counter above the version": FLASHES["two-marks.img"],
    "a record of the counter above the version": FLASHES["record-above.img"],
    "a record of the counter of the version": put(MARKED, 5 * BLOCK, record(1)),
    "metadata of version 1": put(MARKED, BLOCK, first_metadata_1(ROWS, 2), 2 * BLOCK, first_metadata_1(ROWS, 2)),
}


def refused(image):
    """The front of a boot's line where layout or metadata refuse it, and of any other."""
    fault = first_faults.layout_fault(image[:BLOCK], len(image) // BLOCK)
    if fault:
        return f"boot bad-layout {1 + first_faults.LAYOUT_FAULTS.index(fault)}"
    replicas = (image[BLOCK * block : BLOCK * (block + 1)] for block in (1, 2))
    return "boot no-metadata" if all(first_faults.metadata_fault(replica, ROWS, 2) for replica in replicas) else "boot"


def rows_of_boots():
    """The flashes with one part changed, and the lines by which layout or metadata are refused."""
    found = {row: read for row, read in begun("boots.rows") if row in HOSTILE}
    wanted = {name: bytes(data) for name, data in HOSTILE.items()}
    yield from each(wanted, {row: read.files.get("flash.img") for row, read in found.items()})
    lines = [one(read.printed.decode(), "(boot(?: bad-layout .| no-metadata)?)") for read in found.values()]
    yield "the lines of boots", [refused(read.files.get("flash.img")) for read in found.values()], lines
    records = {row: read.said[0] for row, read in begun("boots.rows") if row.startswith("the counter is raised")}
    yield "the records of the counter", [record(5)] * 6, list(records.values())


def device_of_128():
    """A device with a table of 128 entries, and with UEFI's protective MBR: one partition from block 1 to the last one."""
    entries = make_table.entries_of([(STORE, 6, 27), (METADATA, 28, 28), (METADATA, 29, 29)], 128)
    primary = make_table.header(1, 39, 2, entries, 128, first=6, last=34)
    backup = make_table.header(39, 1, 35, entries, 128, first=6, last=34)
    image = bytes(40 * BLOCK)
    image = put(image, 446, struct.pack("<B3sB3sII", 0, b"\x00\x02\x00", 0xEE, b"\xff\xff\xff", 1, 39), 510, b"\x55\xaa")
    return put(image, BLOCK, primary, 2 * BLOCK, entries, 35 * BLOCK, entries, 39 * BLOCK, backup)


TABLES = {
    "size": "size",
    "store of 7": "store of 7 blocks",
    "store of 8": "store of 8 blocks",
    "backwards": "store that ends before it begins",
    "replica behind it": "replica behind the last usable block",
    "store and replica share a block": "store and replica that share a block",
    "replicas share a block": "replicas that share a block",
    "beyond the device": "store beyond the device",
}


def rows_of_tables():
    front = "a table with another part: "
    disks = {row: read for row, read in begun("tables.rows")}
    found = {row[len(front) :]: read.files.get("disk.img") for row, read in disks.items() if row.startswith(front)}
    cases = ((name, table) for name, table in make_table.CASES.items() if name != "valid")
    wanted = {TABLES.get(name, name): bytes(make_table.device(MARKED, table)) for name, table in cases}
    yield from each(wanted, found)
    lines = [one(read.printed.decode(), r"(gpt [\w -]*|boot)") for row, read in disks.items() if row.startswith(front)]
    faults = (first_faults.table_fault(image) for image in found.values())
    yield "the lines of boots", [f"gpt {fault}" if fault else "boot" for fault in faults], lines
    fdisk = disks["a boot behind a table of 128 entries"].files.get("disk.img")
    yield "a table of fdisk", device_of_128(), put(fdisk, 6 * BLOCK, bytes(24 * BLOCK))
    primary, backup, entries = make_table.CASES["valid"]
    yield "table.img", bytes(make_table.device(MARKED)), own_files("tables.rows")["table.img"]


def rows_of_sendings():
    """What a sending of each file answers."""
    for row, read in begun("sendings.rows"):
        for name, line in zip(("x", "y"), read.printed.decode().split("\n")[1:]):
            data = read.files.get(name)
            if data is not None:
                yield row, "send " + first_faults.sent(data), line


def rows_of_capsules():
    yield "hello.cap", HELLO_CAPSULE, own_files("capsules.rows")["hello.cap"]
    for row, read in begun("capsules.rows"):
        if read.files.get("h.cap") is not None:
            fault = fault_of(capsule_entries, read.files.get("h.cap"))
            yield row, f"not-capsule {capsule_number(fault)}\n", read.printed.decode()
        if read.files.get("u.cap") is not None:
            yield row, capsule([item("tb-fw", b"hello", version=3)], flags=0x10000), read.files.get("u.cap")


def rows_of_packages():
    wanted = {
        "b.fip": package([("tb-fw", b"hello"), ("nt-fw", b"xyz")], 16),
        "cut95.fip": HELLO[:95],
        "cut100.fip": HELLO[:100],
        "cut15.fip": HELLO[:15],
        "far.fip": bytes(put(HELLO, 32, b"\xff" * 16)),
    }
    yield from each(wanted, own_files("packages.rows"))
    found = {row: read for row, read in begun("packages.rows")}
    yield "a package of no entries", package([]), found["a package of no entries is a header and the end marker"].said[0]
    yield "many.fip", PACKAGES["many.fip"], found["a package of 65 entries"].files.get("many.fip")
    yield "flags.fip", PACKAGES["flags.fip"], found["the serial number and the flags of a package stay"].files.get("flags.fip")


def rows_of_manifests():
    found = {row: read for row, read in begun("manifests.rows")}
    for row, version in (("a manifest of the lowest version of the second form", 224), ("a manifest of version 70000", 70000)):
        yield row, manifest_of(version), found[row].said[0]


def rows_of_formats():
    found = {row: read for row, read in begun("formats.rows")}
    for banks, name in ((3, "three"), (4, "four")):
        said = found[f"a flash of {name} banks is formatted"].said
        yield f"{name} banks", [layout(ROWS, banks), first_metadata(ROWS, banks)], said[:2]


def rows_of_banks():
    own = own_files("banks.rows")
    yield "1.list", list_of(1), own["1.list"]
    yield "both.list", list_of(2, 1), own["both.list"]
    for banks, name in ((3, "three.img"), (4, "four.img")):
        image = put(b"\xff" * (BLOCK * (8 + 7 * banks)), 0, layout(ROWS, banks))
        for at in (BLOCK, 2 * BLOCK):
            image = put(image, at, first_metadata(ROWS, banks))
        image = put(image, 8 * BLOCK, manifest_of(1), 9 * BLOCK, b"abc", 11 * BLOCK, b"hello")
        yield name, bytes(image), own[name]


def directory(bank, version, accepted):
    """The first 48 bytes of what is told of the images of a bank: a header, and of the manifest, which has one block."""
    header = struct.pack("<IIII", 1, len(ROWS), 32, bank)
    return header + guid("manifest") + struct.pack("<IIII", BLOCK, len(manifest_of(version)), version, accepted)


def rows_of_directories():
    told = ((0, 1, 1), (1, 2, 0), (1, 2, 1), (0, 1, 1))
    text = "".join(read.printed.decode() for name in ("updates.rows", "staging.rows") for _, read in begun(name))
    found = re.findall(rf"total={16 + 32 * len(ROWS)} (\w+)", text)
    yield "what is read of the directory", [directory(*numbers).hex() for numbers in told], found


def rows_of_soaks():
    with open(path_of("soaks.rows"), encoding="utf-8") as file:
        pairs = re.findall(r"run fwu \S+ (?:--allow \S+ )?soak (\d+) (\d+)\n> (soak rounds=.*)", file.read())
    for seed, rounds, line in pairs:
        yield f"a soak of seed {seed}, of {rounds} rounds", soak_model.line_of(int(seed), int(rounds)), line


# The lengths of the images that are looked at side by side, and of those that are looked at one after the other.
SIDE_BY_SIDE = {
    "like": (12288, 8100, 8000, 7000, 5000, 5001, 6000),
    "unlike": (100, 8000, 65, 100, 100, 64, 3),
}


def rows_of_side_by_side():
    """Manifests and packages of seven images, of which image i is so many times the byte i."""
    wanted = {}
    for name, sizes in SIDE_BY_SIDE.items():
        images = [(str(uuid.UUID(bytes=bytes([i] * 16))), bytes([i]) * size) for i, size in enumerate(sizes, 1)]
        wanted[f"{name}.manifest"] = manifest(7, [(kind, 9, data) for kind, data in images])
        wanted[f"{name}.fip"] = package([("manifest", wanted[f"{name}.manifest"]), *images])
    yield from each(wanted, own_files("side_by_side.rows"))


def rows_of_servings():
    """What a model of a server writes for the requests of a row, on the flash that was formatted."""
    for row, read in begun("servings.rows"):
        if row == "replies of the most bytes":
            text = manifest_of(1, tb_fw=b"a" * 4100)
            wanted = put(FLASHES["formatted.img"], 8 * BLOCK, text, 9 * BLOCK, b"a" * 4100)
            yield "the flash of the most bytes", bytes(wanted), read.files.get("flash.img")
        elif read.files.get("requests.bin") is not None and read.files.get("replies.bin") is not None:
            written = io.BytesIO()
            serve_model.model_serve(io.BytesIO(read.files.get("requests.bin")), written, serve_model.ModelAgent())
            yield row, written.getvalue(), read.files.get("replies.bin")


CHECKS = {
    "common.rows": files_of_all_rows,
    "packages.rows": rows_of_packages,
    "manifests.rows": rows_of_manifests,
    "capsules.rows": rows_of_capsules,
    "formats.rows": rows_of_formats,
    "boots.rows": rows_of_boots,
    "side_by_side.rows": rows_of_side_by_side,
    "sendings.rows": rows_of_sendings,
    "staging.rows": rows_of_directories,
    "banks.rows": rows_of_banks,
    "tables.rows": rows_of_tables,
    "soaks.rows": rows_of_soaks,
    "servings.rows": rows_of_servings,
}


def told(values):
    """The same; what cannot be read is told in the place of a value."""
    try:
        yield from values
    except (Unread, ValueError, KeyError, IndexError, rows.Differs) as unread:
        yield f"{type(unread).__name__} {unread}", None, None


def main():
    agree = differ = 0
    for place, check in CHECKS.items():
        for name, wanted, found in told(check()):
            if wanted == found and wanted not in (None, []):
                agree += 1
                print(f"{place}: {name}")
                continue
            differ += 1
            where, own, other = both(wanted, found)
            print(f"DIFFERS: {place}: {name}\n  by the formats{where}: {own}\n  in the row{where}: {other}")
    print(f"{agree} agree, {differ} differ")
    return 1 if differ else 0


if __name__ == "__main__":
    sys.exit(main())
