#!/bin/sh
# The processor time of `fwu FLASH boot` beside that of `sha256sum` over the same bytes, as a ratio, in one run.
# A bank has at most 16 slots of 1 MiB, so the bank that is booted has a manifest and 15 images of 1 MiB each.
set -eu
cd "$(dirname "$0")/.."
work=$(mktemp -d -p /dev/shm 2>/dev/null || mktemp -d) # a barrier on a disk would count the disk
trap 'rm -rf "$work"' EXIT

(cd crates/fwu_prog && rt run >"$work/build.log" 2>&1) || { cat "$work/build.log"; exit 1; }
python3 checks/model/make_flash.py "$work/flash.img" --large 15
tail -c +$((9 * 4096 + 1)) "$work/flash.img" | head -c $((15 * 1048576)) >"$work/images.bin"

python3 - "$work" crates/fwu_prog/out/fwu_prog <<'PY'
import resource
import subprocess
import sys

work, program = sys.argv[1:]
ROUNDS = 20


def seconds(words):
    before = resource.getrusage(resource.RUSAGE_CHILDREN)
    for _ in range(ROUNDS):
        subprocess.run(words, check=True, stdout=subprocess.DEVNULL)
    after = resource.getrusage(resource.RUSAGE_CHILDREN)
    return (after.ru_utime + after.ru_stime - before.ru_utime - before.ru_stime) / ROUNDS


line = subprocess.run([program, work + "/flash.img", "boot"], check=True, capture_output=True).stdout
assert line == b"boot bank=0 version=1 trials=0 counter=1\n", line
boot = seconds([program, work + "/flash.img", "boot"])
digest = seconds(["sha256sum", work + "/images.bin"])
print(f"boot {boot * 1000:.1f} ms, sha256sum {digest * 1000:.1f} ms, ratio {boot / digest:.2f} (15 MiB, {ROUNDS} runs)")
PY
