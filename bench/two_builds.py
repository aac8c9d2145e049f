#!/usr/bin/env python3
"""Two builds of the programs beside each other, and beside sha256sum and cp, in one run.

    two_builds.py NEW OLD [PLACE]     folders with `fwu` and `fip`; it works in PLACE, at first /dev/shm

Each ratio is of the least processor time of rounds that take turns: both builds and the yardsticks meet the same neighbours. The peak
of memory is that of one run, by GNU time where it is installed.
"""
import hashlib
import os
import subprocess
import sys
import tempfile
import uuid

MAKE_FLASH = os.path.join(os.path.dirname(os.path.abspath(__file__)), "..", "checks", "model", "make_flash.py")
BUILDS = ("new", "old")
GNU_TIME = "/usr/bin/time"
ROUNDS = 20
MIB = 1 << 20
UNEQUAL = {"powers of two": [1024 << min(i, 10) for i in range(15)], "equal steps": [1024 + i * 74825 for i in range(15)]}
TYPES = ("5ff9ec0b-4d22-3e4d-a544-c39d81c73f0a", "47d4086d-4cfe-9846-9b95-2950cbbd5a00", "d6d0eea7-fcea-d54b-9782-9934f234b6e4")


def made(words):
    subprocess.run(words, check=True, stdout=subprocess.DEVNULL)


def cost(words, script=None, before=None, leaves=()):
    """Processor seconds of one run, whose new files are then removed."""
    if before:
        made(before)
    with open(script or "/dev/null", "rb") as source, open("out.txt", "wb") as out:
        child = subprocess.Popen(words, stdin=source, stdout=out)
        _, status, usage = os.wait4(child.pid, 0)
        child.returncode = status
    assert status == 0, words
    for name in leaves:
        os.remove(name)
    return usage.ru_utime + usage.ru_stime


def peak(run):
    """What one more run takes at most, as a text, or none."""
    if not isinstance(run, tuple) or not os.path.exists(GNU_TIME):
        return ""
    words, *rest = run
    cost([GNU_TIME, "-f", "%M", "-o", "peak.txt", *words], *rest)
    with open("peak.txt", encoding="ascii") as file:
        return f", {int(file.read()) / 1024:.1f} MiB"


def least(runs, rounds=ROUNDS):
    """Of each of these runs, given by name, the least seconds, in turns."""
    costs = {name: [] for name in runs}
    for _ in range(rounds):
        for name, run in runs.items():
            costs[name].append(cost(*run) if isinstance(run, tuple) else run())
    return {name: min(of) for name, of in costs.items()}


def told(title, runs, yardstick, rounds=ROUNDS):
    """A line of both builds beside the sum of some yardsticks."""
    found = least(runs, rounds)
    by = sum(found[name] for name in yardstick)
    ratios = ", ".join(f"{name} {found[name] * 1000:.1f} ms, {found[name] / by:.2f}{peak(runs[name])}" for name in BUILDS)
    print(f"{title}: {ratios}; {' and '.join(yardstick)} {by * 1000:.1f} ms; old/new {found['old'] / found['new']:.2f}", flush=True)


def of_builds(builds, program, *words, **how):
    return {name: ([f"{builds[name]}/{program}", *words], how.get("script"), how.get("before"), how.get("leaves", ())) for name in BUILDS}


def package(fip, name, version, sizes, seed):
    """A package of images with these sizes, with its manifest, and the types of its images."""
    types = [str(uuid.UUID(int=0xABC000 + i)) for i in range(len(sizes))]
    for i, size in enumerate(sizes):
        with open(f"{name}-{i}.bin", "wb") as file:
            file.write(hashlib.shake_128(bytes([seed + i])).digest(size))
    made([fip, "manifest", f"{name}.m", str(version), *(f"{it},{version},{name}-{i}.bin" for i, it in enumerate(types))])
    made([fip, "create", f"{name}.fip", f"manifest={name}.m", *(f"{it}={name}-{i}.bin" for i, it in enumerate(types))])
    return types


def boots(builds, title, sizes):
    fwu, fip = f"{builds['new']}/fwu", f"{builds['new']}/fip"
    types = package(fip, "boots", 1, sizes, 0)
    slots = [(size + 4095) // 4096 for size in sizes]
    with open("boots.img", "wb") as file:
        file.write(b"\xff" * 4096 * (8 + 2 * (1 + sum(slots))))
    made([fwu, "boots.img", "format", ",".join(["manifest:1"] + [f"{it}:{count}" for it, count in zip(types, slots)]), "boots.fip"])
    made([fwu, "boots.img", "boot"])
    with open("boots.all", "wb") as file:
        for i in range(len(sizes)):
            with open(f"boots-{i}.bin", "rb") as part:
                file.write(part.read())
    told(title, {**of_builds(builds, "fwu", "boots.img", "boot"), "sha256sum": (["sha256sum", "boots.all"],)}, ["sha256sum"])


def sending(builds):
    made([sys.executable, MAKE_FLASH, "flash.img", "--large", "15"])
    package(f"{builds['new']}/fip", "sent", 2, [MIB] * 15, 100)
    for name, lines in (("boot.txt", "boot\n"), ("send.txt", "boot\nsend sent.fip now\nboot\n")):
        with open(name, "w", encoding="ascii") as file:
            file.write(lines)
    anew = ["cp", "flash.img", "work.img"]

    def both(name):
        fwu = f"{builds[name]}/fwu"
        first = cost([fwu, "work.img", "run"], "boot.txt", anew)
        whole = cost([fwu, "work.img", "run"], "send.txt", anew)
        with open("out.txt", "rb") as out:
            assert b"\nboot bank=1 version=2 trials=0 counter=2\n" in out.read()
        return whole - first

    yardsticks = {"sha256sum": (["sha256sum", "sent.fip"],), "cp": (["cp", "sent.fip", "copy.fip"], None, None, ["copy.fip"])}
    told("a sending of 15 MiB and its boot", {**{it: lambda it=it: both(it) for it in BUILDS}, **yardsticks}, ["sha256sum", "cp"])


def packages(builds):
    for name in "abc":
        with open(f"{name}.bin", "wb") as file:
            file.write(os.urandom(21 * MIB))
    parts = ["tb-fw=a.bin", "soc-fw=b.bin", "nt-fw=c.bin"]
    made([f"{builds['new']}/fip", "create", "our.fip", *parts])
    made([f"{builds['new']}/fip", "capsule", "our.fip", "our.cap"])
    copy = {"cp": (["cp", "our.fip", "copy.bin"], None, None, ["copy.bin"])}
    for words, leaves in (
        (["create", "new.fip", *parts], ["new.fip"]),
        (["capsule", "our.fip", "new.cap"], ["new.cap"]),
        (["package", "our.cap", "new.fip"], ["new.fip"]),
        (["unpack", "our.fip", "new-"], [f"new-{name}.bin" for name in TYPES]),
    ):
        told(f"fip {words[0]} of 63 MiB", {**of_builds(builds, "fip", *words, leaves=leaves), **copy}, ["cp"])


def lines(builds):
    made([sys.executable, MAKE_FLASH, "small.img"])
    image = "begin\nopen nt-fw w\n" + "write 1 000102030405060708090a0b0c0d0e0f\n" * 1022
    scripts = {
        "show and cut": "boot\n" + "show\ncut 4294967295 4096\n" * 32767 + "show\n",
        "discover": "boot\n" + "discover\n" * 65535,
        "open, read, commit": "boot\n" + "open nt-fw r\nread 1 16\ncommit 1 now\n" * 21845,
        "open and commit": "boot\n" + "open nt-fw r\ncommit 1 now\n" * 32767 + "show\n",
        "write of 16 bytes": "boot\n" + image * 63 + "show\n" * 1023,
    }
    for title, script in scripts.items():
        with open("lines.txt", "w", encoding="ascii") as file:
            file.write(script)
        found = least(of_builds(builds, "fwu", "small.img", "run", script="lines.txt", before=None), 5)
        rates = ", ".join(f"{name} {script.count(chr(10)) / found[name] / 1e6:.2f} million" for name in BUILDS)
        print(f"lines a second, {title}: {rates}; new/old {found['old'] / found['new']:.2f}", flush=True)


def writes(builds):
    """15 images of 1 MiB in lines `write` of 4096 bytes, without what the same runs take that write none."""
    made([sys.executable, MAKE_FLASH, "one.img", "--large", "1"])
    name = str(uuid.UUID(int=0xABC000))
    images = [hashlib.shake_128(bytes([100 + i])).digest(MIB) for i in range(15)]
    for i, image in enumerate([*images, b""]):
        pieces = "".join(f"write 1 {image[at : at + 4096].hex()}\n" for at in range(0, len(image), 4096))
        with open(f"writes-{i}.txt", "w", encoding="ascii") as file:
            file.write(f"boot\nbegin\nopen {name} w\n{pieces}commit 1 now\n")
    with open("images.bin", "wb") as file:
        file.write(b"".join(images))

    def all_writes(build):
        run = lambda i: cost([f"{builds[build]}/fwu", "one.img", "run"], f"writes-{i}.txt")
        return sum(run(i) for i in range(15)) - 15 * run(15)

    yardsticks = {"sha256sum": (["sha256sum", "images.bin"],), "cp": (["cp", "images.bin", "copy.bin"], None, None, ["copy.bin"])}
    told("lines write of 4096 bytes, 15 MiB", {**{it: lambda it=it: all_writes(it) for it in BUILDS}, **yardsticks}, ["sha256sum", "cp"], 5)


def main(new, old, place="/dev/shm"):
    builds = {"new": os.path.abspath(new), "old": os.path.abspath(old)}
    with tempfile.TemporaryDirectory(dir=place) as work:
        os.chdir(work)
        boots(builds, "boot of 15 images of 1 MiB", [MIB] * 15)
        for title, sizes in UNEQUAL.items():
            boots(builds, f"boot of unequal images, {title}", sizes)
        sending(builds)
        packages(builds)
        lines(builds)
        writes(builds)
        os.chdir("/")


main(*sys.argv[1:])
