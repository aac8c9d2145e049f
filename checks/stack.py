#!/usr/bin/env python3
"""Tells how much stack the functions of a static library for aarch64 take at most, by its code.

    stack.py LIB.a FUNCTION ..        of each function the greatest depth in bytes, and the calls that lead there, with the frame of each

A frame is all that a function's instructions move the stack pointer down by, as if none of them stood on two ways. A function that is
called last, in place of a return, is counted as one that is called. What is called outside the library isn't counted. The status is 1
where a function calls itself, or one through a pointer.
"""
import re
import subprocess
import sys

HEAD = re.compile(r"[0-9a-f]+ <(.+)>:$")
CALL = re.compile(r"\s*[0-9a-f]+: R_AARCH64_(?:CALL|JUMP)26\s+(?:\.text\.)?(.+?)(?:\+0x[0-9a-f]+)?$")
LOWERED = re.compile(r"\tsub\tsp, sp, #(\w+)(, lsl #12)?")
PUSHED = re.compile(r"\[sp, #-(\w+)\]!")
BY_POINTER = re.compile(r"\tblr\t")


def read_code(library):
    """Of each function its frame, and what it calls."""
    run = subprocess.run(["aarch64-linux-gnu-objdump", "-dr", library], check=True, capture_output=True, text=True)
    frames, calls, now = {}, {}, None
    for line in run.stdout.split("\n"):
        if head := HEAD.match(line):
            now = head[1]
            frames[now], calls[now] = 0, set()
        elif call := CALL.match(line):
            calls[now].add(call[1])
        elif lowered := LOWERED.search(line):
            frames[now] += int(lowered[1], 0) << (12 if lowered[2] else 0)
        elif pushed := PUSHED.search(line):
            frames[now] += int(pushed[1], 0)
        elif BY_POINTER.search(line):
            sys.exit(f"{now} calls a function through a pointer")
    return frames, calls


def deepest(name, frames, calls, told, above=()):
    """The greatest depth of a function, and the calls that lead there."""
    if name in above:
        sys.exit(f"{name} calls itself")
    if name not in told:
        below = [deepest(it, frames, calls, told, (*above, name)) for it in calls[name] if it in frames]
        depth, path = max(below, default=(0, ()))
        told[name] = frames[name] + depth, (name, *path)
    return told[name]


def main(words):
    if len(words) < 2:
        sys.exit(__doc__)
    frames, calls = read_code(words[0])
    told = {}
    for name in words[1:]:
        depth, path = deepest(name, frames, calls, told)
        print(f"{name}: {depth}")
        for it in path:
            print(f"{frames[it]:8} {it}")


if __name__ == "__main__":
    main(sys.argv[1:])
