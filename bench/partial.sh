#!/bin/sh
# The processor time of an update that brings one image of fifteen, `send FILE now partial`, beside that of the whole package, as a
# ratio, in one run; and how it grows with the bytes that are copied, over banks of 1, 5, 10 and 15 images of 1 MiB. Each is told
# without the boot before it, which hashes the bank that it starts. A copied byte is read and written as one that is sent, and hashed
# once; what is saved is the package.
set -eu
cd "$(dirname "$0")/.."
work=$(mktemp -d -p /dev/shm 2>/dev/null || mktemp -d) # a barrier on a disk would count the disk
trap 'rm -rf "$work"' EXIT

for program in fwu_prog fip_prog; do
    (cd crates/$program && rt run >"$work/build.log" 2>&1) || { cat "$work/build.log"; exit 1; }
done
for count in 1 5 10 15; do
    python3 checks/model/make_flash.py "$work/flash-$count.img" --large $count
done

python3 - "$work" crates/fwu_prog/out/fwu_prog crates/fip_prog/out/fip_prog <<'PY'
import hashlib
import os
import resource
import subprocess
import sys
import uuid

work, fwu, fip = sys.argv[1:]
fwu, fip = os.path.abspath(fwu), os.path.abspath(fip)
os.chdir(work)
ROUNDS = 10


def quiet(*words):
    subprocess.run(words, check=True, stdout=subprocess.DEVNULL)


def seconds(script):
    before = resource.getrusage(resource.RUSAGE_CHILDREN)
    subprocess.run([fwu, "work.img", "run"], check=True, input=script, stdout=subprocess.DEVNULL)
    after = resource.getrusage(resource.RUSAGE_CHILDREN)
    return after.ru_utime + after.ru_stime - before.ru_utime - before.ru_stime


def least(count, script):
    times = []
    for _ in range(ROUNDS):
        quiet("cp", f"flash-{count}.img", "work.img")
        times.append(seconds(script))
    return min(times)


def packages(count):
    """A package of a new image 0 behind the manifest and of the bank's others, and one of the manifest and that image alone."""
    rows = []
    for i in range(count):
        with open(f"{i}.bin", "wb") as file:
            file.write(hashlib.shake_128(bytes([100 if i == 0 else i])).digest(1 << 20))
        rows.append((str(uuid.UUID(int=0xABC000 + i)), f"{i}.bin"))
    quiet(fip, "manifest", "m.bin", "2", *(f"{name},{2 if i == 0 else 1},{file}" for i, (name, file) in enumerate(rows)))
    parts = ["manifest=m.bin", *(f"{name}={file}" for name, file in rows)]
    quiet(fip, "create", "whole.fip", *parts)
    quiet(fip, "create", "part.fip", *parts[:2])


for count in (1, 5, 10, 15):
    packages(count)
    quiet("cp", f"flash-{count}.img", "work.img")
    script = b"boot\nsend part.fip now partial\nboot\n"
    lines = subprocess.run([fwu, "work.img", "run"], check=True, capture_output=True, input=script).stdout.decode().splitlines()
    assert lines[1:] == [
        f"send SUCCESS images=2 skipped=0 copied={count - 1}",
        "boot bank=1 version=2 trials=0 counter=2",
    ], lines
    boot = least(count, b"boot\n")
    part = least(count, b"boot\nsend part.fip now partial\n") - boot
    whole = least(count, b"boot\nsend whole.fip now\n") - boot
    print(f"{count} images: partial {part * 1000:.1f} ms, whole {whole * 1000:.1f} ms, ratio {part / whole:.2f}")
PY
