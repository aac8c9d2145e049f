#!/bin/sh
# Requests a second of `fwu FLASH serve` beside the same calls as lines of `fwu FLASH run`, in one run: discover, reads of 16 bytes, and
# writes of 16 and of 4096 bytes, which keep the whole request. Then the most memory of a serving, by the number of requests.
set -eu
cd "$(dirname "$0")/.."
work=$(mktemp -d -p /dev/shm 2>/dev/null || mktemp -d) # a barrier on a disk would count the disk
trap 'rm -rf "$work"' EXIT

(cd crates/fwu_prog && rt run >"$work/build.log" 2>&1) || { cat "$work/build.log"; exit 1; }
python3 checks/model/make_flash.py "$work/flash.img"

python3 -B - "$work" crates/fwu_prog/out/fwu_prog <<'PY'
import os
import resource
import shutil
import subprocess
import sys

sys.path.insert(0, "demo")
from serve_client import BEGIN, COMMIT, DISCOVER, OPEN, READ, WRITE, frame, numbered, script_line, type_of, words

work, program = sys.argv[1:]
ROUNDS = 5
NT_FW = type_of("nt-fw")


def discovers(count):
    return [(DISCOVER, b"")] * count


def reads(count):
    return [(OPEN, NT_FW + words(0)), (READ, words(1, 16)), (COMMIT, words(1, 0, 0))] * (count // 3)


def writes(size):
    def calls(count):
        # a slot of nt-fw has 16,384 bytes
        pieces = 16384 // size - 1
        image = [(BEGIN, words(0, 0)), (OPEN, NT_FW + words(1))] + [(WRITE, words(1) + bytes(range(16)) * (size // 16))] * pieces
        return (image * (count // len(image) + 1))[:count]

    calls.__name__ = f"writes of {size}"
    return calls


def inputs(calls):
    with open(f"{work}/frames", "wb") as file:
        file.write(b"".join(frame(numbered(i + 1, words(f) + a)) for i, (f, a) in enumerate(calls)))
    with open(f"{work}/script", "w") as file:
        file.write("boot\n" + "".join(script_line(f, a) + "\n" for f, a in calls))


def seconds(name, word):
    least = None
    for _ in range(ROUNDS):
        shutil.copy(f"{work}/flash.img", f"{work}/work.img")
        before = resource.getrusage(resource.RUSAGE_CHILDREN)
        with open(f"{work}/{name}") as source, open(f"{work}/out", "w") as out:
            subprocess.run([program, f"{work}/work.img", word], check=True, stdin=source, stdout=out)
        after = resource.getrusage(resource.RUSAGE_CHILDREN)
        took = after.ru_utime + after.ru_stime - before.ru_utime - before.ru_stime
        least = took if least is None else min(least, took)
    return least


for make, count in ((discovers, 60000), (reads, 60000), (writes(16), 60000), (writes(4096), 480)):
    calls = make(count)
    inputs(calls)
    served, scripted = seconds("frames", "serve"), seconds("script", "run")
    print(f"{make.__name__}: {len(calls) / served / 1e6:.2f} million requests a second, {served / scripted:.2f} of the script's time")

for count in (100000, 200000):
    inputs(discovers(count))
    with open(f"{work}/frames") as source:
        program_id = os.posix_spawn(program, [program, f"{work}/work.img", "serve"], os.environ,
            file_actions=[(os.POSIX_SPAWN_DUP2, source.fileno(), 0), (os.POSIX_SPAWN_OPEN, 1, "/dev/null", os.O_WRONLY, 0)])
        _, status, used = os.wait4(program_id, 0)
    assert status == 0
    print(f"{count} requests: at most {used.ru_maxrss / 1024:.1f} MiB")
PY
