#!/bin/sh
# Lines a second of `fwu FLASH run` over scripts of `show` and `cut` on one flash, and whether the time grows with the lines alone:
# 16,384 lines beside 65,536, in one run. Beside them scripts of `discover`, of reads of 16 bytes and of writes of 16 bytes.
set -eu
cd "$(dirname "$0")/.."
work=$(mktemp -d -p /dev/shm 2>/dev/null || mktemp -d) # a barrier on a disk would count the disk
trap 'rm -rf "$work"' EXIT

(cd crates/fwu_prog && rt run >"$work/build.log" 2>&1) || { cat "$work/build.log"; exit 1; }
python3 checks/model/make_flash.py "$work/flash.img"

python3 - "$work" crates/fwu_prog/out/fwu_prog <<'PY'
import resource
import subprocess
import sys

work, program = sys.argv[1:]
ROUNDS = 5


def shows(lines):
    return "boot\n" + "show\ncut 4294967295 4096\n" * ((lines - 2) // 2) + "show\n"


def discovers(lines):
    return "boot\n" + "discover\n" * (lines - 1)


def reads(lines):
    pairs = (lines - 1) // 3
    return "boot\n" + "open nt-fw r\nread 1 16\ncommit 1 now\n" * pairs + "show\n" * (lines - 1 - 3 * pairs)


def writes(lines):
    # a slot of nt-fw has 16,384 bytes, so each image takes 1,022 pieces of 16 bytes and is begun anew
    image = "begin\nopen nt-fw w\n" + "write 1 000102030405060708090a0b0c0d0e0f\n" * 1022
    whole = (lines - 1) // 1024
    return "boot\n" + image * whole + "show\n" * (lines - 1 - 1024 * whole)


def seconds(lines, script):
    script = script(lines)
    name = f"{work}/script.txt"
    with open(name, "w") as file:
        file.write(script)
    count = script.count("\n")
    assert count == lines, count
    before = resource.getrusage(resource.RUSAGE_CHILDREN)
    for _ in range(ROUNDS):
        with open(name) as source, open(work + "/out.txt", "w") as out:
            subprocess.run([program, work + "/flash.img", "run"], check=True, stdin=source, stdout=out)
    after = resource.getrusage(resource.RUSAGE_CHILDREN)
    with open(work + "/out.txt") as out:
        assert sum(1 for _ in out) == count
    return (after.ru_utime + after.ru_stime - before.ru_utime - before.ru_stime) / ROUNDS


short = seconds(16384, shows)
long = seconds(65536, shows)
print(f"16,384 lines {short * 1000:.1f} ms, 65,536 lines {long * 1000:.1f} ms, ratio {long / short:.2f} of 4.00")
print(f"{65536 / long / 1e6:.2f} million lines a second ({ROUNDS} runs)")
for script in (discovers, reads, writes):
    short = seconds(16384, script)
    long = seconds(65536, script)
    print(f"{script.__name__}: {65536 / long / 1e6:.2f} million lines a second, ratio {long / short:.2f} of 4.00")
PY
