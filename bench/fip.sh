#!/bin/sh
# `fip` beside fiptool (Debian's arm-trusted-firmware-tools), where it is installed, in one run: processor time and peak memory of
# `create`, `update`, `remove` and `unpack` over three payloads that make a package of nearly 64 MiB, the time of `info`, and the
# start-up. `create`, `capsule`, `package` and `unpack` of that package beside `cp` of it, and beside two copies of it through one
# buffer of its size, by one read and one write: through a buffer of malloc, and by dd, whose buffer begins at a page. And what `fip`
# takes to refuse by sizes alone: an image of 3 GiB, and a package and a capsule of 60 MiB whose 64 entries or items overlap.
set -eu
cd "$(dirname "$0")/.."
. bench/build_fip.sh
for name in a b c; do head -c $((21 << 20)) /dev/urandom >"$work/$name.bin"; done
python3 - "$work" "$fip" <<'PY'
import os
import shutil
import struct
import subprocess
import sys

work, fip = sys.argv[1:]
os.chdir(work)


def cost(words):
    """Processor seconds and the peak resident bytes of one run."""
    child = subprocess.Popen(words, stdout=subprocess.DEVNULL)
    _, status, usage = os.wait4(child.pid, 0)
    assert status == 0, words
    return usage.ru_utime + usage.ru_stime, usage.ru_maxrss * 1024


def compare(title, ours, theirs, name="fiptool", rounds=20):
    """The least of so many rounds of each, in turns, since other programs share the machine."""
    costs = [(cost(ours), cost(theirs)) for _ in range(rounds)]
    one, other = (min(costs, key=lambda round: round[i][0])[i] for i in (0, 1))
    print(f"{title}: fip {one[0] * 1000:.1f} ms, {one[1] / 2**20:.0f} MiB; {name} {other[0] * 1000:.1f} ms, {other[1] / 2**20:.0f} MiB;"
          f" ratio of time {one[0] / max(other[0], 1e-4):.2f}")


def beside_fiptool():
    """The commands that fiptool has too."""
    compare("create", [fip, "create", "our.fip", "tb-fw=a.bin", "soc-fw=b.bin", "nt-fw=c.bin"],
            ["fiptool", "create", "--tb-fw", "a.bin", "--soc-fw", "b.bin", "--nt-fw", "c.bin", "their.fip"])
    subprocess.run(["cmp", "our.fip", "their.fip"], check=True)
    compare("update", [fip, "update", "our.fip", "our-new.fip", "nt-fw=a.bin"],
            ["fiptool", "update", "--nt-fw", "a.bin", "--out", "their-new.fip", "their.fip"])
    subprocess.run(["cmp", "our-new.fip", "their-new.fip"], check=True)
    compare("remove", [fip, "remove", "our.fip", "our-less.fip", "soc-fw"],
            ["fiptool", "remove", "--force", "--soc-fw", "--out", "their-less.fip", "their.fip"])
    subprocess.run(["cmp", "our-less.fip", "their-less.fip"], check=True)
    compare("unpack", [fip, "unpack", "our.fip", "out-"], ["fiptool", "unpack", "--force", "their.fip"])
    compare("info", [fip, "info", "our.fip"], ["fiptool", "info", "their.fip"])
    open("small.bin", "wb").write(b"hello")
    subprocess.run([fip, "create", "small.fip", "tb-fw=small.bin"], check=True, stdout=subprocess.DEVNULL)
    compare("start-up", [fip, "info", "small.fip"], ["fiptool", "info", "small.fip"])


subprocess.run([fip, "create", "our.fip", "tb-fw=a.bin", "soc-fw=b.bin", "nt-fw=c.bin"], check=True, stdout=subprocess.DEVNULL)
size = os.path.getsize("our.fip")
print(f"package of {size / 2**20:.1f} MiB")
if shutil.which("fiptool"):
    beside_fiptool()
else:
    print("skipped beside fiptool, which is not installed")
COPY = """
#include <fcntl.h>
#include <stdlib.h>
#include <sys/stat.h>
#include <unistd.h>

int main(int count, char **names) {
    struct stat found;
    int source = open(names[1], O_RDONLY), target = open(names[2], O_WRONLY | O_CREAT | O_TRUNC, 0644);
    if (count != 3 || fstat(source, &found)) return 1;
    char *bytes = malloc(found.st_size);
    return !bytes || read(source, bytes, found.st_size) != found.st_size || write(target, bytes, found.st_size) != found.st_size;
}
"""


def plain_copy():
    """The words that copy the package by one read and one write through one buffer of malloc."""
    open("copy.c", "w").write(COPY)
    subprocess.run([os.environ.get("CC", "cc"), "-O2", "-o", "copy", "copy.c"], check=True)
    return ["./copy", "our.fip", "copy.bin"]


def making(words, made):
    """What a run takes that makes new files, which are then removed: so none takes away the bytes of the file of another run."""
    taken = cost(words)
    for name in made:
        os.remove(name)
    return taken


def beside_copies(title, ours, made, plain, rounds=40):
    """The least of so many rounds of a command, which makes these files, and of the copies, in turns."""
    dd = ["dd", "if=our.fip", "of=copy.bin", f"bs={size}", "count=1", "status=none"]
    copies = {"cp": ["cp", "our.fip", "copy.bin"], "copy": plain, "dd": dd}
    costs = [(making(ours, made), *(making(words, ["copy.bin"]) for words in copies.values())) for _ in range(rounds)]
    one, *others = (min(round[i][0] for round in costs) for i in range(1 + len(copies)))
    beside = "; ".join(f"{name} {other * 1000:.1f} ms, ratio {one / other:.2f}" for name, other in zip(copies, others))
    print(f"{title}: fip {one * 1000:.1f} ms, {max(round[0][1] for round in costs) / 2**20:.0f} MiB; {beside}")


copy = plain_copy()
subprocess.run([fip, "capsule", "our.fip", "our.cap"], check=True, stdout=subprocess.DEVNULL)
subprocess.run([fip, "package", "our.cap", "again.fip"], check=True, stdout=subprocess.DEVNULL)
subprocess.run(["cmp", "our.fip", "again.fip"], check=True)
beside_copies("create", [fip, "create", "new.fip", "tb-fw=a.bin", "soc-fw=b.bin", "nt-fw=c.bin"], ["new.fip"], copy)
beside_copies("capsule", [fip, "capsule", "our.fip", "new.cap"], ["new.cap"], copy)
beside_copies("package", [fip, "package", "our.cap", "new.fip"], ["new.fip"], copy)
TYPES = ("5ff9ec0b-4d22-3e4d-a544-c39d81c73f0a", "47d4086d-4cfe-9846-9b95-2950cbbd5a00", "d6d0eea7-fcea-d54b-9782-9934f234b6e4")
beside_copies("unpack", [fip, "unpack", "our.fip", "new-"], [f"new-{name}.bin" for name in TYPES], copy)


def refused(title, words, line):
    """A refusal with status 6: what it prints, and the peak resident bytes."""
    child = subprocess.Popen(words, stdout=subprocess.PIPE)
    said = child.stdout.read().decode()
    _, status, usage = os.wait4(child.pid, 0)
    assert (os.waitstatus_to_exitcode(status), said) == (6, line), (title, status, said)
    assert usage.ru_maxrss <= 100 << 10, (title, usage.ru_maxrss)
    print(f"{title}: {said.strip()}; {usage.ru_utime + usage.ru_stime:.3f} s, {usage.ru_maxrss / 1024:.0f} MiB")


with open("large.bin", "wb") as large:
    large.truncate(3 << 30)
refused("manifest of 3 GiB", [fip, "manifest", "m.bin", "1", "tb-fw,7,large.bin"], "manifest too-large\n")
size = 60 << 20
with open("overlaps.fip", "wb") as package:
    package.write(bytes.fromhex("010064aa785634120000000000000000"))
    for i in range(64):
        package.write(bytes([1 + i] * 16) + struct.pack("<QQQ", 0, size, 0))
    package.truncate(size)
refused("remove of overlaps", [fip, "remove", "overlaps.fip", "less.fip", "01010101-0101-0101-0101-010101010101"], "pack too-large\n")
with open("overlaps.cap", "wb") as capsule:
    capsule.write(bytes.fromhex("edd5cb6d2de8444cbda17194199ad92a") + struct.pack("<III", 28, 0, size) + struct.pack("<IHH", 1, 0, 64))
    capsule.write(b"".join(struct.pack("<Q", 8 + 64 * 8 + 40 * i) for i in range(64)))
    for i in range(64):
        capsule.write(struct.pack("<I16sB3xIIQ", 2, bytes([1 + i] * 16), i + 1, size - 548 - 40 * (i + 1), 0, 0))
    capsule.truncate(size)
refused("package of overlaps", [fip, "package", "overlaps.cap", "less.fip"], "pack too-large\n")
PY
