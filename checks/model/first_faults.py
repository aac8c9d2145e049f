"""The first fault of a layout block, of metadata, a manifest, a package, a capsule, or a device's table, by the order in which
docs/FORMATS.md has them, or None; and what a sending of a file answers. check_vectors.py goes by it.
"""
import hashlib
import re
import struct
import uuid
import zlib

from make_flash import BLOCK, ROWS, guid, metadata, metadata_1
from make_packages import CAPSULE_TYPE
from make_table import METADATA, STORE

NIL = bytes(16)
DIRECTORY = guid("46575544-4952-4543-544f-525900000001")
LAYOUT_FAULTS = ("Short", "BadMagic", "BadSize", "BadCrc", "BadField", "BeyondFlash")
CAPSULE_FAULTS = ("ShortHeader", "NotFmp", "BadSize", "ShortFmp", "BadVersion", "TooMany", "BadItem", "Duplicate")


class Fault(Exception):
    """Bytes are no package, or no capsule."""


def fault_of(read, data):
    try:
        read(data)
    except Fault as fault:
        return str(fault)
    return None


def numbers(data, at, form):
    return struct.unpack_from("<" + form, data, at)


def layout_fault(block, blocks):
    """On a flash of so many blocks."""
    if len(block) < 32:
        return "Short"
    checksum, magic, banks, images, size = numbers(block, 0, "5I")
    if magic != 0x4C555746:
        return "BadMagic"
    if not 2 <= images <= 16 or size != 32 + 24 * images:
        return "BadSize"
    if len(block) < size:
        return "Short"
    if checksum != zlib.crc32(block[4:size]):
        return "BadCrc"
    types, slots, zeros = zip(*(numbers(block, 32 + 24 * i, "16sII") for i in range(images)))
    are_types = len(set(types)) == images and NIL not in types and DIRECTORY not in types
    are_slots = all(1 <= count <= 256 for count in slots)
    if not 2 <= banks <= 4 or any(block[20:32]) or any(zeros) or not are_types or not are_slots:
        return "BadField"
    return "BeyondFlash" if blocks < 8 + banks * sum(slots) else None


def metadata_fault(block, rows, banks):
    """Of metadata of these rows and so many banks, in either version."""
    entry = 32 + 24 * banks
    size = 40 + entry * len(rows)
    if len(block) < size:
        return "Short"
    checksum, version, active, previous, said = numbers(block, 0, "5I")
    if version not in (1, 2):
        return "NotTwo"
    if version == 2 and said != size:
        return "BadSize"
    start = 40 if version == 2 else 16
    end = start + entry * len(rows)
    if checksum != zlib.crc32(block[4:end]):
        return "BadCrc"
    states = list(block[24 : 24 + banks])
    bits = [[numbers(block, start + entry * i + 24 * b + 48, "I")[0] for i in range(len(rows))] for b in range(banks)]
    are_numbers = max(active, previous) < banks and all(bit in (0, 1) for row in bits for bit in row)
    are_states = version == 1 or all(state in (0xFF, 0xFE, 0xFC) for state in states)
    # Each other field has one value alone.
    wanted = metadata(rows, active, previous, states, bits) if version == 2 else metadata_1(rows, active, previous, bits)
    return None if are_numbers and are_states and block[:end] == wanted else "BadField"


def manifest_fault(text, rows):
    count = len(rows) - 1
    end = 16 + 56 * count
    if len(text) < end + 32:
        return "Short"
    magic, form, version, said = numbers(text, 0, "4I")
    if magic != 0x464D5746:
        return "BadMagic"
    if form not in (1, 2) or form == 2 and version < 224:
        return "BadForm"
    if form == 1 and version > 223:
        return "VersionTooHigh"
    if said != count:
        return "BadCount"
    own = [numbers(text, 16 + 56 * j, "16sI") for j in range(count)]
    if any(kind != guid(name) for (kind, _), (name, _) in zip(own, rows[1:])):
        return "WrongOrder"
    if any(size > BLOCK * slots for (_, size), (_, slots) in zip(own, rows[1:])):
        return "TooLarge"
    return None if hashlib.sha256(text[:end]).digest() == text[end : end + 32] else "BadDigest"


def is_complete(images, rows):
    """Whether the images, the manifest first, are those that it says."""
    text = images[0]
    if manifest_fault(text, rows):
        return False
    own = [numbers(text, 16 + 56 * j, "16xII32s") for j in range(len(rows) - 1)]
    return all(size == len(data) and digest == hashlib.sha256(data).digest() for (size, _, digest), data in zip(own, images[1:]))


def package_entries(data):
    """Of each entry its type, its payload's place and size."""
    if len(data) < 16:
        raise Fault("ShortHeader")
    name, serial = numbers(data, 0, "II")
    if name != 0xAA640001:
        raise Fault("BadName")
    if serial == 0:
        raise Fault("ZeroSerial")
    entries = []
    while True:
        i = len(entries)
        if len(data) < 56 + 40 * i:
            raise Fault(f"NoEnd({i})")
        entry = numbers(data, 16 + 40 * i, "16sQQ")
        if entry[0] == NIL:
            break
        if i == 64:
            raise Fault("TooMany")
        if entry[0] in (kind for kind, _, _ in entries):
            raise Fault(f"Duplicate({i})")
        entries.append(entry)
    for i, (_, place, size) in enumerate(entries):
        if place + size > len(data):
            raise Fault(f"Beyond({i})")
    return entries


def capsule_item(data, place):
    """The same of an item in the payloads' part of a capsule, or None where it is no item."""
    if place + 32 > len(data):
        return None
    version, kind, size, code = numbers(data, place, "I16s4xII")
    first = place + 24 + 8 * version
    if not 1 <= version <= 3 or kind == NIL or first + size + code > len(data):
        return None
    return uuid.UUID(bytes_le=kind).bytes, first, size


def capsule_entries(data):
    """The same of a capsule's items."""
    if len(data) < 28:
        raise Fault("ShortHeader")
    if data[:16] != CAPSULE_TYPE:
        raise Fault("NotFmp")
    header, _, size = numbers(data, 16, "III")
    if not 28 <= header <= size <= len(data):
        raise Fault("BadSize")
    data = data[header:size]
    if len(data) < 8:
        raise Fault("ShortFmp")
    version, drivers, items = numbers(data, 0, "IHH")
    if version != 1:
        raise Fault("BadVersion")
    if items > 64:
        raise Fault("TooMany")
    end = 8 + 8 * (drivers + items)
    if len(data) < end:
        raise Fault("ShortFmp")
    entries = []
    for i, place in enumerate(numbers(data, 8 + 8 * drivers, f"{items}Q")):
        item = capsule_item(data, place) if place >= end else None
        if item is None:
            raise Fault(f"BadItem({i})")
        kind, first, size = item
        if kind in (other for other, _, _ in entries):
            raise Fault(f"Duplicate({i})")
        entries.append((kind, header + first, size))
    return entries


def capsule_number(fault):
    return 1 + CAPSULE_FAULTS.index(fault.split("(")[0])


def in_words(fault):
    """As the programs print it: `no-end 3` of `NoEnd(3)`."""
    word, *index = re.findall(r"\w+", fault)
    return " ".join([re.sub(r"\B([A-Z])", r"-\1", word).lower(), *index])


def sent(data):
    """What a sending of this file answers on a flash that is accepted: the lowest image that is missing or too large first."""
    try:
        is_capsule = data.startswith(CAPSULE_TYPE)
        entries = capsule_entries(data) if is_capsule else package_entries(data)
    except Fault as fault:
        return f"bad-capsule {capsule_number(str(fault))}" if is_capsule else f"bad-package {in_words(str(fault))}"
    images = {kind: data[place : place + size] for kind, place, size in entries}
    for name, slots in ROWS:
        kind = guid(name)
        if kind not in images:
            return f"missing {uuid.UUID(bytes=kind)}"
        if len(images[kind]) > BLOCK * slots:
            return f"too-large {uuid.UUID(bytes=kind)}"
    return "SUCCESS" if is_complete([images[guid(name)] for name, _ in ROWS], ROWS) else "end AUTH_FAIL"


def table_entries(image, own):
    """The entries of the copy of a table whose header stands in this block, or None where it isn't valid."""
    blocks = len(image) // BLOCK
    text = bytes(image[BLOCK * own : BLOCK * own + 92])
    fixed, checksum, zero, at, other = numbers(text, 0, "16sIIQQ")
    place, number, entry, entries_checksum = numbers(text, 72, "QIII")
    count = -(-128 * number // BLOCK)
    entries = bytes(image[BLOCK * place : BLOCK * place + 128 * number])
    is_so = fixed == b"EFI PART" + struct.pack("<II", 0x10000, 92) and (zero, entry) == (0, 128) and 1 <= number <= 128
    is_there = (at, other) == (own, blocks - own) and place == (2 if own == 1 else blocks - 1 - count) and 3 + 2 * count <= blocks
    is_summed = checksum == zlib.crc32(text[:16] + bytes(4) + text[20:]) and entries_checksum == zlib.crc32(entries)
    return entries if is_so and is_there and is_summed else None


def table_fault(image):
    """Of a device: that it has no table, or what its places lack."""
    blocks = len(image) // BLOCK
    entries = table_entries(image, 1) or table_entries(image, blocks - 1)
    if entries is None:
        return "no-table"
    count = -(-len(entries) // BLOCK)
    rows = [numbers(entries, at, "16s16xQQ") for at in range(0, len(entries), 128)]
    stores, replicas = ([(first, last) for kind, first, last in rows if kind == wanted] for wanted in (STORE, METADATA))
    if len(stores) != 1:
        return "no-store"
    if len(replicas) != 2:
        return f"replicas {len(replicas)}"
    parts = sorted(stores + replicas)
    are_within = all(2 + count <= first <= last <= blocks - 2 - count for first, last in parts)
    are_apart = all(one[1] < other[0] for one, other in zip(parts, parts[1:]))
    first, last = stores[0]
    return None if are_within and are_apart and 8 <= last - first + 1 <= 65536 else "too-small"
