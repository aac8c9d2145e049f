#!/bin/sh
# The processor time of sending a package and booting it, `fwu FLASH run` with the lines boot, send, boot, beside that of one
# `sha256sum` over the package and one copy of it, as a ratio, in one run. A bank has at most 16 slots of 1 MiB, so the package has a
# manifest and 15 images of 1 MiB each. The first boot hashes the bank that it starts, so each byte is hashed three times: there, while
# it is sent, and at the last boot; the ratio is told without the first boot, whose time is measured by itself.
set -eu
cd "$(dirname "$0")/.."
work=$(mktemp -d -p /dev/shm 2>/dev/null || mktemp -d) # a barrier on a disk would count the disk
trap 'rm -rf "$work"' EXIT

for program in fwu_prog fip_prog; do
    (cd crates/$program && rt run >"$work/build.log" 2>&1) || { cat "$work/build.log"; exit 1; }
done
python3 checks/model/make_flash.py "$work/flash.img" --large 15

python3 - "$work" crates/fwu_prog/out/fwu_prog crates/fip_prog/out/fip_prog <<'PY'
import hashlib
import os
import resource
import subprocess
import sys
import uuid

work, fwu, fip = sys.argv[1:]
fwu, fip = os.path.abspath(fwu), os.path.abspath(fip)
os.chdir(work)
ROUNDS = 10

rows = []
for i in range(15):
    with open(f"{i}.bin", "wb") as file:
        file.write(hashlib.shake_128(bytes([100 + i])).digest(1 << 20))
    rows.append((str(uuid.UUID(int=0xABC000 + i)), f"{i}.bin"))
subprocess.run([fip, "manifest", "m.bin", "2", *(f"{name},2,{file}" for name, file in rows)], check=True, stdout=subprocess.DEVNULL)
subprocess.run([fip, "create", "p.fip", "manifest=m.bin", *(f"{name}={file}" for name, file in rows)], check=True, stdout=subprocess.DEVNULL)


def seconds(words, script=None):
    before = resource.getrusage(resource.RUSAGE_CHILDREN)
    subprocess.run(words, check=True, input=script, stdout=subprocess.DEVNULL)
    after = resource.getrusage(resource.RUSAGE_CHILDREN)
    return after.ru_utime + after.ru_stime - before.ru_utime - before.ru_stime


def fresh():
    subprocess.run(["cp", "flash.img", "work.img"], check=True)


def least(words, script=None):
    times = []
    for _ in range(ROUNDS):
        fresh()
        times.append(seconds(words, script))
    return min(times)


fresh()
lines = subprocess.run([fwu, "work.img", "run"], check=True, capture_output=True, input=b"boot\nsend p.fip now\nboot\n").stdout.decode().splitlines()
assert lines[1] == "send SUCCESS images=16 skipped=0" and lines[2] == "boot bank=1 version=2 trials=0 counter=2", lines
boot = least([fwu, "work.img", "run"], b"boot\n")
both = least([fwu, "work.img", "run"], b"boot\nsend p.fip now\nboot\n") - boot
digest = least(["sha256sum", "p.fip"])
copy = least(["cp", "p.fip", "copy.fip"])
print(f"send and boot {both * 1000:.1f} ms, sha256sum {digest * 1000:.1f} ms, cp {copy * 1000:.1f} ms (15 MiB, least of {ROUNDS})")
print(f"ratio to one sha256sum and one copy {both / (digest + copy):.2f}, to two and one {both / (2 * digest + copy):.2f}")
PY
