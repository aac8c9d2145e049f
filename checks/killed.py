#!/usr/bin/env python3
"""Kills runs of the built programs at random moments, and looks at what is left.

    killed.py [--runs N] [--seed SEED] [--size MIB] [BIN]    BIN is bin/ where it isn't named

`fip create` makes OUT anew, of one of two payloads in turn, and is killed: OUT is one of both packages, whole. What the killed runs
left beside it stays, so the later runs have to do with it.

`fwu FLASH run` boots, sends four packages of rising versions and boots, and is killed: a boot of what is left starts. It has the version
that was acknowledged last, by the line of its sending, or a later one of the same run.

It prints a line for each program, and ends with 1 where one run left anything else.
"""
import argparse
import hashlib
import os
import random
import subprocess
import sys
import tempfile
import time

sys.dont_write_bytecode = True
sys.path.insert(0, os.path.join(os.path.dirname(os.path.abspath(__file__)), "model"))

from make_packages import of_three  # noqa: E402

FLASH_BLOCKS = 64
LAYOUT = "manifest:1,tb-fw:2,nt-fw:4"


def patterned(seed, size):
    return hashlib.shake_128(seed).digest(size)


def killed_after(words, moment, script=None):
    """What a run printed before it was killed, and its status; the status is 0 where it ended first."""
    program = subprocess.Popen(words, stdin=subprocess.PIPE, stdout=subprocess.PIPE)
    try:
        printed, _ = program.communicate(script, timeout=moment)
    except subprocess.TimeoutExpired:
        program.kill()
        printed, _ = program.communicate()
    return printed.decode(), program.returncode


def time_of(words, script=None):
    began = time.monotonic()
    subprocess.run(words, input=script, stdout=subprocess.DEVNULL, check=True)
    return time.monotonic() - began


def kill_fip(fip, runs, size, chance):
    """How many runs were killed, and the numbers of those that left something else than a whole package."""
    for name, seed in (("a", b"a"), ("b", b"b")):
        with open(f"{name}.bin", "wb") as file:
            file.write(patterned(seed, size))
        subprocess.run([fip, "create", f"{name}.fip", f"nt-fw={name}.bin"], stdout=subprocess.DEVNULL, check=True)
    whole = []
    for name in ("a", "b"):
        with open(f"{name}.fip", "rb") as file:
            whole.append(hashlib.sha256(file.read()).digest())
    makes = [[fip, "create", "out.fip", f"nt-fw={name}.bin"] for name in ("a", "b")]
    took = time_of(makes[0])
    torn, killed = [], 0
    for run in range(runs):
        _, status = killed_after(makes[run % 2], chance.uniform(0, took * 1.2))
        killed += status != 0
        with open("out.fip", "rb") as file:
            if hashlib.sha256(file.read()).digest() not in whole:
                torn.append(run)
    return killed, torn


def version_of(line):
    """The version that a line of a boot tells, or none."""
    parts = dict(part.split("=") for part in line.split() if "=" in part)
    return int(parts["version"]) if line.startswith("boot bank=") else None


def kill_fwu(fwu, runs, chance):
    """How many runs were killed, and the numbers of those after which a boot didn't start as it has to."""
    for version in range(1, 6):
        with open(f"{version}.fip", "wb") as file:
            file.write(of_three(version, patterned(b"t%d" % version, 8000), patterned(b"n%d" % version, 16000)))
    with open("new.img", "wb") as file:
        file.write(b"\xff" * 4096 * FLASH_BLOCKS)
    subprocess.run([fwu, "new.img", "format", LAYOUT, "1.fip"], stdout=subprocess.DEVNULL, check=True)
    lines = ["boot"]
    for version in range(2, 6):
        lines += [f"send {version}.fip now", "boot"]
    script = "".join(line + "\n" for line in lines).encode()

    def fresh():
        with open("new.img", "rb") as file, open("flash.img", "wb") as copy:
            copy.write(file.read())

    fresh()
    took = time_of([fwu, "flash.img", "run"], script)
    wrong, killed = [], 0
    for run in range(runs):
        fresh()
        printed, status = killed_after([fwu, "flash.img", "run"], chance.uniform(0, took * 1.1), script)
        killed += status != 0
        acknowledged = 1 + sum(line.startswith("send SUCCESS") for line in printed.splitlines())
        booted = subprocess.run([fwu, "flash.img", "boot"], capture_output=True, text=True)
        found = version_of(booted.stdout)
        if booted.returncode != 0 or found is None or not acknowledged <= found <= 5:
            wrong.append((run, acknowledged, booted.stdout))
    return killed, wrong


def main():
    parser = argparse.ArgumentParser()
    parser.add_argument("--runs", type=int, default=200)
    parser.add_argument("--seed", type=int, default=1)
    parser.add_argument("--size", type=int, default=50)
    parser.add_argument("bin", nargs="?", default=os.path.join(os.path.dirname(os.path.abspath(__file__)), "..", "bin"))
    options = parser.parse_args()
    bin = os.path.abspath(options.bin)
    chance = random.Random(options.seed)
    with tempfile.TemporaryDirectory() as folder:
        os.chdir(folder)
        killed, torn = kill_fip(os.path.join(bin, "fip"), options.runs, options.size << 20, chance)
        left = sum(name.startswith("out.fip.") for name in os.listdir("."))
        print(f"fip create: {options.runs} runs, {killed} killed, {left} new files left beside OUT, OUT torn by {torn or 'none'}")
        killed, wrong = kill_fwu(os.path.join(bin, "fwu"), options.runs, chance)
        print(f"fwu run: {options.runs} runs, {killed} killed, the next boot wrong after {wrong or 'none'}")
        os.chdir("/")
    return 1 if torn or wrong else 0


if __name__ == "__main__":
    sys.exit(main())
