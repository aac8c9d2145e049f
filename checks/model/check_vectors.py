#!/usr/bin/env python3
"""Makes the bytes in the tests' sources again, from docs/FORMATS.md alone, and compares them with those that stand there.

    check_vectors.py

It prints a line for each constant, case or list that agrees, and of each other one both values; then how many there are. It ends
with status 1 where one differs. The bytes are made by make_flash.py, make_packages.py, make_table.py and make_rows.py; the faults
of bytes that are changed go by first_faults.py, and what a soak draws and prints by soak_model.py. From a source come what is
compared and, of a case, which bytes it changes. A constant of digits or bytes of which nothing is known here differs too.
"""
import hashlib
import os
import re
import sys
import uuid
import zlib

sys.dont_write_bytecode = True

import first_faults
import make_packages
import make_table
import soak_model
from first_faults import capsule_entries, fault_of
from make_flash import ACCEPTED, NAMES, ROWS, VALID, first_bits, first_metadata, first_metadata_1, guid, layout, manifest, metadata
from make_flash import sealed
from make_packages import capsule, item, manifest_of, package
from make_rows import list_of, put, word
from make_table import METADATA

CRATES = os.path.join(os.path.dirname(os.path.abspath(__file__)), "..", "..", "crates")


# What stands in a source.


class Unread(Exception):
    """A source hasn't the form that is looked for."""


def one(text, pattern):
    """The group of the first place of this form, or its groups."""
    found = re.search(pattern, text, re.S)
    if not found:
        raise Unread(f"nothing there is as {pattern}")
    groups = found.groups()
    return groups[0] if len(groups) == 1 else groups


def bytes_in(text):
    """The bytes of a list of numbers."""
    return bytes(int(number, 0) for number in re.findall(r"\w+", text))


def constants(text):
    """The constants that are digits or bytes alone, by their names."""
    digits = re.findall(r'const (\w+): &str =\s*"((?:[0-9a-f]{2})+)";', text)
    lists = re.findall(r"const (\w+): \[u8; \d+\] = \[([^\]]*)\];", text)
    return {name: bytes.fromhex(value) for name, value in digits} | {name: bytes_in(value) for name, value in lists}


def lines_in(text, name):
    """The constant of this name, a text."""
    return one(text, rf'const {name}: &(?:str|\[u8\]) =\s*b?"([^"]*)";').replace("\\n", "\n")


def rows(text, name, pattern):
    """The groups of each row of the constant of this name."""
    count, body = one(text, rf"const {name}: \[[^\n]*; (\d+)\] = \[\s*(.*?),?\s*\];\n")
    found = re.findall(pattern, body, re.S)
    if len(found) != int(count):
        raise Unread(f"{name} has {count} rows, and {len(found)} are read")
    return found


def each(wanted, found):
    """The values of each name in one of both."""
    for name in [*wanted, *(name for name in found if name not in wanted)]:
        yield name, wanted.get(name), found.get(name)


def constants_are(wanted):
    """The check of a source that has these constants."""
    return lambda text: each(wanted, constants(text))


# crates/runs_kit and crates/vectors


def flashes(text):
    wanted = {
        "LAYOUT": layout(ROWS, 2),
        "METADATA": first_metadata(ROWS, 2),
        "ON_TRIAL": metadata(ROWS, 1, 0, [ACCEPTED, VALID], first_bits(ROWS, 2)),
        "VERSION_1": first_metadata_1(ROWS, 2),
        "MANIFEST": manifest_of(1),
        "MANIFEST_2": manifest_of(2),
        "MANIFEST_5": manifest_of(5),
    }
    yield from each(wanted, constants(text))
    yield "LIST", list_of(1).decode(), lines_in(text, "LIST")


def tables_of_four(text):
    primary, backup, entries = make_table.CASES["valid"]
    yield from each({"PRIMARY": primary, "BACKUP": backup, "ENTRIES": entries[: 3 * 128]}, constants(text))


def base_values(text):
    digest = hashlib.sha256(b"abc").digest()
    yield "the checksum of 123456789", zlib.crc32(b"123456789"), int(one(text, r'b"123456789"\), (\w+)\)'), 0)
    yield "the first byte of a digest", digest[0], int(one(text, r"digest\[0\], (\w+)\)"), 0)
    yield "the last word of it", int.from_bytes(digest[28:], "little"), int(one(text, r"&digest, 28\), (\w+)\)"), 0)
    yield from seals(text)


def seals(text):
    block = sealed(bytes(12) + word(32) + bytes(12))
    found = one(text, r"put_le32\(&mut \w+, 0, (\w+)\)")
    yield "the checksum of a sealed block", int.from_bytes(block[:4], "little"), int(found, 0)


def packages(text):
    fronts = {"TABLE": make_packages.FILES["p2.fip"][: make_packages.FRONT], "TABLE_OF_ONE": make_packages.FILES["m2.fip"][:96]}
    yield from each(fronts, constants(text))


def list_of_both(text):
    yield "LIST", list_of(1, 2).decode(), lines_in(text, "LIST")



# crates/fip_vectors

HELLO = package([("tb-fw", b"hello")])
HELLO_CAPSULE = capsule([item("tb-fw", b"hello")])

# What the files of these names have, in each of the sources.
FILES = {
    "h.bin": b"hello",
    "s3.bin": b"xyz",
    "abc.bin": b"abc",
    f"x{NAMES['tb-fw']}.bin": b"hello",
}


def files(text):
    """Those whose digits stand in the source."""
    for name, digits in re.findall(r'\(\s*"(?:fip_test/)?([\w.-]+)",\s*(?:&\[)?"((?:[0-9a-f]{2})*)"', text):
        yield f"the file {name}", FILES.get(name), bytes.fromhex(digits)


def fixtures(text):
    yield from each({"HELLO": HELLO, "HELLO_CAPSULE": HELLO_CAPSULE, "EMPTY": package([])}, constants(text))
    yield "the type tb-fw", guid("tb-fw"), bytes_in(one(text, r"Guid::of\(\[([^;\]]*)\]\)"))


# Bytes that are changed, as a source has them: a list of places and bytes, or the name of one; and the fault then.
CHANGES = r"&(\[.*?\]|\w+)"
FAULT = r"CapsuleFault::(\w+(?:\(\d+\))?)"


def changed(text, data, changes):
    if not changes.startswith("["):
        changes = " ".join(rows(text, changes, r"\(\d+, \w+\)"))
    for at, value in re.findall(r"\((\d+), (\w+)\)", changes):
        data = put(data, int(at), bytes_in(value)) if int(at) < len(data) else data
    return bytes(data)


def capsule_faults(text, name):
    wanted, found = [], []
    for count, changes, fault in rows(text, name, rf"\(\s*(\d+),\s*{CHANGES},\s*{FAULT}"):
        wanted.append(fault_of(capsule_entries, changed(text, HELLO_CAPSULE[: int(count)], changes)))
        found.append(fault)
    yield name, wanted, found


def capsule_images(text):
    wanted, found = [], []
    for changes, place, size in rows(text, "TAKEN", rf"\({CHANGES}, (\d+), (\d+)\)"):
        wanted += capsule_entries(changed(text, HELLO_CAPSULE, changes))
        found.append((guid("tb-fw"), int(place), int(size)))
    yield "TAKEN", wanted, found


def many(count):
    """A capsule of so many items of no bytes, whose types are sixteen times 1, 2 and so on."""
    return capsule([item(str(uuid.UUID(bytes=bytes([i + 1]) * 16)), b"", index=0) for i in range(count)])


def capsules_of_many(text):
    wanted, found = [], []
    row = rf"\(\s*(\d+),\s*{CHANGES},\s*(?:Ok\((\d+)\)|Err\([\w:]*\({FAULT})"
    for count, changes, number, fault in rows(text, "SEVERAL", row):
        data = changed(text, many(int(count)), changes)
        wanted.append(fault_of(capsule_entries, data) or str(len(capsule_entries(data))))
        found.append(fault or number)
    yield "SEVERAL", wanted, found


def capsules(text):
    yield from capsule_faults(text, "HEADERS")
    yield from capsule_faults(text, "ITEMS")
    yield from capsule_images(text)
    yield from capsules_of_many(text)


def sizes(text):
    yield "the header of a package", package([])[:16], bytes_in(one(text, r"let head = \[(.*?)\];"))


# crates/layer_vectors

FIVE_TYPES = [str(uuid.UUID(bytes=bytes([17 * k] * 16))) for k in (1, 2, 3)]
FIVE_ROWS = list(zip(["manifest", "tb-fw", "nt-fw", *FIVE_TYPES], [1, 1, 3, 1, 1, 1]))
FIVE_CONTENTS = [b"abc", b"\xff" * 8300, b"hello", b"\xff" * 4096, b"\xff" * 64]
FIVE_IMAGES = [(name, version, data) for (name, _), version, data in zip(FIVE_ROWS[1:], [7, 9, 1, 1, 1], FIVE_CONTENTS)]
FIVE = {"LAYOUT": layout(FIVE_ROWS, 2), "METADATA": first_metadata(FIVE_ROWS, 2), "MANIFEST": manifest(1, FIVE_IMAGES)}

IMAGE_TYPE = str(uuid.UUID(bytes=bytes(range(1, 17))))
IMAGE_ROWS = [("aaaaaaaa-aaaa-aaaa-aaaa-aaaaaaaaaaaa", 1), (IMAGE_TYPE, 1)]


def manifest_of_image(security):
    return manifest(security, [(IMAGE_TYPE, 9, b"abc")])


def manifests_of_layers(text):
    yield from each({"MANIFEST": manifest_of_image(7)}, constants(text))
    data, wanted, found = manifest_of_image(7), [], []
    change = r"(?:put|has_fault)\(rt, bytes, (\d+), (?:&\[)?(\w+)\]?(?:, ManifestFault::(\w+))?\)"
    for at, value, fault in re.findall(change, text):
        data = bytes(put(data, int(at), bytes_in(value)))
        if fault:
            wanted.append(first_faults.manifest_fault(data, IMAGE_ROWS))
            found.append(fault)
    yield "faults", wanted, found


def hashes(text):
    """The first bytes of the digests of messages of the bytes 0, 1, 2, … modulo 251, and the digests of the standard's examples."""
    example = one(text, r'let long = b"(\w+)";').encode()
    wanted = {"OF_ABC": hashlib.sha256(b"abc").digest(), "OF_TWO_BLOCKS": hashlib.sha256(example).digest()}
    yield from each(wanted, constants(text))
    message = bytes(i % 251 for i in range(1000))
    found = {int(length): bytes_in(data) for length, data in rows(text, "DIGESTS", r"\((\d+), \[([^\]]*)\]\)")}
    yield "DIGESTS", {length: hashlib.sha256(message[:length]).digest()[:8] for length in found}, found


def digests(text):
    yield "ABC", hashlib.sha256(b"abc").hexdigest() + "\n", lines_in(text, "ABC").lower()


ENDINGS = ("Nothing", "Boot", "Accept", "Previous")


def package_of_soak(number, sizes_in, security):
    return package(list(zip(make_packages.NAMES, soak_model.all_images(number, sizes_in, security))))


def round_text(number, drawn):
    """A round as a source has it."""
    cut = "Some(Cut {{ n: {}, k: {} }})".format(*drawn.cut) if drawn.cut else "None"
    front = f"number: {number}, sizes: {list(drawn.sizes)}, security: {drawn.security}, acceptance: {int(drawn.is_trial)}"
    return f"{front}, cut: {cut}, ending: Ending::{ENDINGS[drawn.ending]},"


def packages_of_soak(text, drawn_sizes, first_round):
    first = package_of_soak(0, drawn_sizes, 1)
    later = package_of_soak(1, first_round.sizes, first_round.security)
    greatest = package_of_soak(2**32 - 1, (0, 3), 223)
    wanted = {
        "FIRST_DIGEST": hashlib.sha256(first).digest(),
        "ROUND_DIGEST": hashlib.sha256(later).digest(),
        "GREATEST_DIGEST": hashlib.sha256(greatest).digest(),
    }
    yield from each(wanted, constants(text))
    found = re.findall(r"(\d+),\s+(?:FIRST|ROUND|GREATEST)_DIGEST", text)
    yield "the lengths of packages", [len(first), len(later), len(greatest)], [int(length) for length in found]


def soak_rounds(text):
    found = one(text, r"for want in \[(.*?)\]")
    draws = soak_model.Draws(1)
    yield "the first draws", [draws.draw(32768) for _ in range(10)], [int(number) for number in re.findall(r"\d+", found)]
    draws = soak_model.Draws(1)
    drawn_sizes = draws.sizes()
    drawn = {number: draws.round(number) for number in range(1, 28)}
    yield "the first sizes", str(list(drawn_sizes)), one(text, r"draw_sizes\(&mut register\), (\[.*?\])")
    found = [" ".join(fields.split()) for fields in re.findall(r"= Round \{(.*?)\};", text, re.S)]
    yield "rounds 1 and 27", [round_text(number, drawn[number]) for number in (1, 27)], found
    yield from packages_of_soak(text, drawn_sizes, drawn[1])


CHECKS = {
    "runs_kit/src/flashes.rt": flashes,
    "vectors/src/tables.rt": tables_of_four,
    "vectors/src/packages.rt": packages,
    "vectors/src/boots.rt": constants_are({"FREE": b"\xff" * 289}),
    "vectors/src/values.rt": base_values,
    "vectors/src/real_files.rt": list_of_both,
    "fip_vectors/src/fixtures.rt": fixtures,
    "fip_vectors/src/memory.rt": files,
    "fip_vectors/src/real_files.rt": files,
    "fip_vectors/src/capsules.rt": capsules,
    "fip_vectors/src/sizes.rt": sizes,
    "layer_vectors/src/boots_in_buffers.rt": constants_are(FIVE),
    "layer_vectors/src/manifests.rt": manifests_of_layers,
    "layer_vectors/src/memory_flash.rt": seals,
    "layer_vectors/src/lists.rt": digests,
    "layer_vectors/src/hashes.rt": hashes,
    "layer_vectors/src/soak_rounds.rt": soak_rounds,
}


def shown(value):
    return value.hex() if isinstance(value, (bytes, bytearray)) else repr(value)


def both(wanted, found):
    """Both values; of longer ones that part in which they differ, and where it begins."""
    if not all(isinstance(value, (bytes, bytearray, list)) for value in (wanted, found)):
        return "", shown(wanted), shown(found)
    least = min(len(wanted), len(found))
    places = [at for at in range(least) if wanted[at] != found[at]]
    first = places[0] if places else least
    end = places[-1] + 1 if len(wanted) == len(found) else None
    return f" from {first} on", shown(wanted[first:end]), shown(found[first:end])


def compared(source):
    """What is compared of a source, and what it would have to be."""
    with open(os.path.join(CRATES, source), encoding="utf-8") as file:
        text = file.read()
    yield from CHECKS[source](text)


def told(values):
    """The same; what cannot be read is told in the place of a value."""
    try:
        yield from values
    except (Unread, ValueError, KeyError, IndexError) as unread:
        yield f"{type(unread).__name__} {unread}", None, None


def main():
    agree = differ = 0
    for source in CHECKS:
        for name, wanted, found in told(compared(source)):
            if wanted == found and wanted not in (None, []):
                agree += 1
                print(f"crates/{source}: {name}")
                continue
            differ += 1
            where, own, other = both(wanted, found)
            print(f"DIFFERS: crates/{source}: {name}\n  by the formats{where}: {own}\n  in the source{where}: {other}")
    print(f"{agree} agree, {differ} differ")
    return 1 if differ else 0


if __name__ == "__main__":
    sys.exit(main())
