#!/usr/bin/env python3
"""Has each system call of a run of the built programs fail in turn, one in each run, and looks at what is left.

    failing_calls.py [BIN]    BIN is bin/ where it isn't named; wants strace

`fip create` makes OUT anew: OUT is the old package or the new one, whole, and it is the new one where the run ended with status 0.
It keeps its mode, and it is the new one where the system refuses that mode to a new file: then it is written where it stands.
So it is with the file that `fip unpack` makes of a payload, and with that of `fip manifest`.
A list of a package that the standard input gives is whole where the system interrupts a read of it or a write of the list.
`fwu FLASH run` boots, sends a package and boots: a boot of what is left starts, with the version that was acknowledged last or with
the one that was sent.

It prints a line for each program and system call, and ends with 1 where one run left anything else.
"""
import os
import re
import shutil
import stat
import subprocess
import sys
import tempfile

sys.dont_write_bytecode = True
sys.path.insert(0, os.path.join(os.path.dirname(os.path.abspath(__file__)), "model"))

from make_packages import manifest_of, of_three, package  # noqa: E402

# What the programs ask of the system for files; what starts a program and maps memory is left alone.
CALLS = (
    "read pread64 write pwrite64 lseek openat open stat fstat lstat newfstatat statx fchmod chmod rename renameat renameat2 "
    "unlink unlinkat fsync fdatasync ftruncate"
).split()


def traced(options, words, script):
    with tempfile.NamedTemporaryFile() as log:
        done = subprocess.run(["strace", "-f", "-o", log.name, *options, *words], input=script, capture_output=True)
        return done, log.read().decode(errors="replace")


def counts(words, script, fresh):
    """How often a run makes each of the calls."""
    fresh()
    _, log = traced(["-e", "trace=" + ",".join("?" + call for call in CALLS)], words, script)
    found = {}
    for line in log.splitlines():
        name = re.match(r"(?:\d+ +)?(\w+)\(", line)
        if name:
            found[name[1]] = found.get(name[1], 0) + 1
    return found


def each_failure(title, words, script, fresh, is_right, calls=CALLS, error="EIO"):
    """Runs with each call failing in turn. How many runs left something wrong."""
    wrong = 0
    for call, count in sorted(counts(words, script, fresh).items()):
        if call not in calls:
            continue
        bad = []
        for number in range(1, count + 1):
            fresh()
            done, _ = traced(["-e", f"trace={call}", "-e", f"inject={call}:error={error}:when={number}"], words, script)
            if not is_right(done):
                bad.append(number)
        print(f"{title}: {call}, each of {count}: {'as it has to be' if not bad else f'WRONG at {bad}'}", flush=True)
        wrong += len(bad)
    return wrong


def fail_making(title, words, out, old, new, told=lambda text: text):
    """A file that is made anew. How many runs left something wrong of it; `told` takes from its bytes what is compared."""

    def fresh():
        for name in os.listdir("."):
            if name.startswith(out):
                os.unlink(name)
        with open(out, "wb") as file:
            file.write(old)
        os.chmod(out, 0o640)

    def is_right(done):
        with open(out, "rb") as file:
            found = told(file.read())
        whole = found == told(new) if done.returncode == 0 else found in (told(old), told(new))
        return whole and stat.S_IMODE(os.stat(out).st_mode) == 0o640

    def is_new(done):
        return done.returncode == 0 and is_right(done)

    wrong = each_failure(title, words, b"", fresh, is_right)
    return wrong + each_failure(f"{title}, the mode refused", words, b"", fresh, is_new, ["fchmod", "chmod"], "EPERM")


def fail_create(fip):
    old, new = package([("nt-fw", b"old" * 3000)]), package([("nt-fw", b"new" * 50000)])
    with open("new.bin", "wb") as file:
        file.write(b"new" * 50000)
    return fail_making("fip create", [fip, "create", "out.fip", "nt-fw=new.bin"], "out.fip", old, new, payload_of)


def payload_of(text):
    """The one payload of a package, by its table."""
    at, size = (int.from_bytes(text[place : place + 8], "little") for place in (32, 40))
    return text[at : at + size] if len(text) >= at + size else None


def fail_unpack(fip):
    new = b"new" * 50000
    with open("in.fip", "wb") as file:
        file.write(package([("nt-fw", new)]))
    out = "xd6d0eea7-fcea-d54b-9782-9934f234b6e4.bin"
    return fail_making("fip unpack", [fip, "unpack", "in.fip", "x"], out, b"old" * 3000, new)


def fail_manifest(fip):
    words = [fip, "manifest", "out.bin", "2", "tb-fw,7,tb.bin", "nt-fw,9,nt.bin"]
    images = {"tb": b"t" * 5000, "nt": b"n" * 70000}
    for name, image in images.items():
        with open(f"{name}.bin", "wb") as file:
            file.write(image)
    return fail_making("fip manifest", words, "out.bin", b"old" * 3000, manifest_of(2, images["tb"], images["nt"]))


def interrupt_list(fip):
    """A list of a package that the standard input gives, each read and write interrupted in turn."""
    text = package([("nt-fw", b"new" * 5000)])
    wanted = subprocess.run([fip, "info", "-"], input=text, capture_output=True, check=True).stdout

    def is_right(done):
        # The first read is the loader's, of the C library. It isn't made again, and the program doesn't begin.
        not_begun = done.returncode == 127 and b"loading shared libraries" in done.stderr
        return not_begun or (done.returncode == 0 and done.stdout == wanted)

    calls = ["read", "write"]
    return each_failure("fip info -, interrupted", [fip, "info", "-"], text, lambda: None, is_right, calls, "EINTR")


def fail_fwu(fwu):
    for version in (1, 2):
        with open(f"{version}.fip", "wb") as file:
            file.write(of_three(version, b"t" * 5000 * version, b"n" * 9000))
    with open("new.img", "wb") as file:
        file.write(b"\xff" * 4096 * 64)
    subprocess.run([fwu, "new.img", "format", "manifest:1,tb-fw:4,nt-fw:4", "1.fip"], stdout=subprocess.DEVNULL, check=True)

    def fresh():
        shutil.copy("new.img", "flash.img")

    def is_right(done):
        acknowledged = 2 if b"send SUCCESS" in done.stdout else 1
        booted = subprocess.run([fwu, "flash.img", "boot"], capture_output=True, text=True)
        found = re.match(r"boot bank=\d+ version=(\d+) ", booted.stdout)
        return booted.returncode == 0 and found is not None and acknowledged <= int(found[1]) <= 2

    return each_failure("fwu run", [fwu, "flash.img", "run"], b"boot\nsend 2.fip now\nboot\n", fresh, is_right)


def main():
    bin = os.path.abspath(sys.argv[1] if len(sys.argv) > 1 else os.path.join(os.path.dirname(os.path.abspath(__file__)), "..", "bin"))
    if shutil.which("strace") is None:
        print("strace isn't installed", file=sys.stderr)
        return 1
    with tempfile.TemporaryDirectory() as folder:
        os.chdir(folder)
        fip, fwu = os.path.join(bin, "fip"), os.path.join(bin, "fwu")
        wrong = fail_create(fip) + fail_unpack(fip) + fail_manifest(fip) + interrupt_list(fip) + fail_fwu(fwu)
        os.chdir("/")
    return 1 if wrong else 0


if __name__ == "__main__":
    sys.exit(main())
