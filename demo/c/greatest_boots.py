#!/usr/bin/env python3
"""How many steps, bytes of the room and bytes of the work buffer a boot by libfwu.a takes at most.

    greatest_boots.py TRY

TRY is the program of try.c. The flashes have 2 or 4 banks of 2, 3, 5 and 15 images. Their metadata is of version 1 or 2, with each
replica damaged or none. Bank 0 is accepted or on trial, and the counter is as the version or below it. The script prints the most
for each number of images, and ends with 1 where a boot starts no bank. """
import itertools
import os
import subprocess
import sys
import tempfile
import uuid

sys.dont_write_bytecode = True
TOP = os.path.dirname(os.path.dirname(os.path.dirname(os.path.abspath(__file__))))
sys.path.insert(0, os.path.join(TOP, "checks", "model"))
from make_flash import ACCEPTED, BLOCK, INVALID, VALID, flash, layout, metadata, metadata_1  # noqa: E402

TRY = os.path.abspath(sys.argv[1])


def metadata_of(rows, banks, form, trial):
    """Metadata by which bank 0 is accepted, or on trial behind bank 1."""
    others = [INVALID] * (banks - 2)
    states = [VALID, ACCEPTED] if trial else [ACCEPTED, INVALID]
    bits = [[int(state == ACCEPTED)] * len(rows) for state in states + others]
    previous = int(trial)
    return metadata_1(rows, 0, previous, bits) if form == 1 else metadata(rows, 0, previous, states + others, bits)


def flash_with(count, banks, form, torn, trial, security, counter):
    rows = [("manifest", 1)] + [(str(uuid.UUID(int=0xABC000 + k)), 1) for k in range(count)]
    image = flash(rows, [bytes([k]) for k in range(count)], [1] * count, security, counter)
    image += b"\xff" * (BLOCK * (banks - 2) * len(rows))
    for block, text in enumerate([layout(rows, banks)] + 2 * [metadata_of(rows, banks, form, trial)]):
        image[BLOCK * block : BLOCK * (block + 1)] = text + b"\xff" * (BLOCK - len(text))
    if torn:
        image[BLOCK * torn] ^= 1
    return image


def taken(image):
    """What a boot of this flash takes: its steps, their bytes, and of the work buffer."""
    with open("flash.img", "wb") as file:
        file.write(image)
    said = subprocess.run([TRY, "flash.img", "list"], capture_output=True, text=True).stdout.split("\n")[0]
    if not said.startswith("answer 0 "):
        sys.exit(f"{said}: a boot of {len(image)} bytes starts no bank")
    return [int(word.partition("=")[2]) for word in said.split()[2:]]


def main():
    for count in (2, 3, 5, 15):
        kinds = itertools.product((2, 4), (1, 2), (0, 1, 2), (False, True), (1, 300), (0, 1))
        boots = [taken(flash_with(count, *kind)) for kind in kinds]
        steps, room, work = map(max, zip(*boots))
        print(f"{count} images: {len(boots)} boots, at most {steps} steps, {room} bytes of room, {work} of the work buffer")


with tempfile.TemporaryDirectory() as place:
    os.chdir(place)
    main()
