#!/bin/sh
# The processor time of `fwu FLASH boot` beside that of `sha256sum` over the same bytes, as a ratio, in one run, for banks of 15 images of
# unequal lengths, 1 KiB to 1 MiB: in powers of two, and in equal steps.
set -eu
cd "$(dirname "$0")/.."
work=$(mktemp -d -p /dev/shm 2>/dev/null || mktemp -d) # a barrier on a disk would count the disk
trap 'rm -rf "$work"' EXIT

for program in fwu_prog fip_prog; do
    (cd crates/$program && rt run >"$work/build.log" 2>&1) || { cat "$work/build.log"; exit 1; }
done

python3 - "$work" crates/fwu_prog/out/fwu_prog crates/fip_prog/out/fip_prog <<'PY'
import hashlib
import os
import resource
import subprocess
import sys
import uuid

work, fwu, fip = sys.argv[1:]
fwu, fip = os.path.abspath(fwu), os.path.abspath(fip)
os.chdir(work)
ROUNDS = 20
POWERS = [1024 << min(i, 10) for i in range(15)]
STEPS = [1024 + i * 74825 for i in range(15)]


def seconds(words):
    before = resource.getrusage(resource.RUSAGE_CHILDREN)
    for _ in range(ROUNDS):
        subprocess.run(words, check=True, stdout=subprocess.DEVNULL)
    after = resource.getrusage(resource.RUSAGE_CHILDREN)
    return (after.ru_utime + after.ru_stime - before.ru_utime - before.ru_stime) / ROUNDS


def made(words):
    subprocess.run(words, check=True, stdout=subprocess.DEVNULL)


def measure(title, sizes):
    names = [str(uuid.UUID(int=0xABC000 + i)) for i in range(len(sizes))]
    for i, size in enumerate(sizes):
        with open(f"{i}.bin", "wb") as file:
            file.write(hashlib.shake_128(bytes([i])).digest(size))
    made([fip, "manifest", "m.bin", "1", *(f"{name},1,{i}.bin" for i, name in enumerate(names))])
    made([fip, "create", "p.fip", "manifest=m.bin", *(f"{name}={i}.bin" for i, name in enumerate(names))])
    slots = [(size + 4095) // 4096 for size in sizes]
    with open("flash.img", "wb") as file:
        file.write(b"\xff" * 4096 * (8 + 2 * (1 + sum(slots))))
    layout = ",".join(["manifest:1"] + [f"{name}:{count}" for name, count in zip(names, slots)])
    made([fwu, "flash.img", "format", layout, "p.fip"])
    made([fwu, "flash.img", "boot"])
    with open("all.bin", "wb") as file:
        for i in range(len(sizes)):
            with open(f"{i}.bin", "rb") as part:
                file.write(part.read())
    boot, digest = seconds([fwu, "flash.img", "boot"]), seconds(["sha256sum", "all.bin"])
    print(f"{title}: boot {boot * 1000:.1f} ms, sha256sum {digest * 1000:.1f} ms, ratio {boot / digest:.2f}")


measure("powers of two", POWERS)
measure("equal steps", STEPS)
PY
