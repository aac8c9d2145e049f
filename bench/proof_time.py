#!/usr/bin/env python3
"""Proves a crate from nothing, and prints where the seconds go: by kind of module, and by function.

usage: bench/proof_time.py CRATE [--test] [--keep FOLDER] [--only FUNCTION ..]

It goes by the libraries that demo/build.sh made, in the folder that bin/proved_at names. Seconds are those between the times at which
the prover kept one module and the next, on one processor, and mean something only where nothing else runs. With --keep the folder's
work is taken and kept, so that only what changed is proved; with --test the crate is read with its tests.
"""
import argparse
import os
import re
import shutil
import subprocess
import sys
import tempfile
import time
from collections import Counter
from pathlib import Path

TOP = Path(__file__).resolve().parent.parent
PROVED_AT = TOP / "bin" / "proved_at"
KINDS = "Lts|Tie|Proof|Kinds|Answers|Invariants|Code|Met|Key|Statement|Instances|TheLink"
OF_FUNCTION = re.compile(rf"Rattle-\w+-(?:proofs|specs)\.(.*?)\.({KINDS})[-.\d]")


def toolchain():
    rt = shutil.which("rt") or sys.exit("rt isn't installed: the toolchain that README names")
    return Path(rt).resolve().parent.parent


def named(crate):
    """Returns the libraries that a crate names."""
    found = re.search(rf"^{crate}:(.*)$", (TOP / "crates.txt").read_text(), re.M)
    return found[1].split() if found else sys.exit(f"crates.txt has no crate {crate}")


def proved():
    """Returns the folder in which demo/build.sh keeps what it proved."""
    return PROVED_AT.read_text().strip() if PROVED_AT.is_file() else sys.exit("nothing is proved yet: run demo/build.sh first")


def words_of(crate, kit):
    """Returns the words by which the prover finds a crate and the libraries below it, as demo/build.sh has them."""
    below = proved()
    root = "src/main.rt" if (TOP / "crates" / crate / "src/main.rt").is_file() else "src/lib.rt"
    words = ["--crate-name", crate, root, "--extern", f"std={kit}/rlibs/std.rlib"]
    for name in named(crate):
        folder = below if (TOP / "crates" / name).is_dir() else kit / "rlibs"
        words += ["--extern", f"{name}={folder}/{name}.rlib"]
    words += ["-L", f"dependency={kit}/rlibs", "-L", f"dependency={below}"]
    words += ["--antt-project", f"{kit}/rattle/logic/antt-project.json", "--logic-built", f"{kit}/logic_built"]
    return [*words, "--links", f"{crate}=", "--jobs", "1"]


def kept_since(folder, began):
    """Returns the modules that were kept in this run, each with the seconds since the one before it."""
    files = sorted((it.stat().st_mtime, it.name) for it in Path(folder).rglob("*") if it.is_file())
    last, found = began, []
    for at, name in files:
        if at >= began:
            found.append((at - last, name))
            last = at
    return found


def show(title, seconds, most):
    print(f"{title}:")
    for name, spent in Counter(seconds).most_common(most):
        if spent >= 0.05:
            print(f"{spent:8.1f}  {name}")


def show_all(modules):
    kinds, functions = Counter(), Counter()
    for spent, name in modules:
        of = OF_FUNCTION.match(name)
        kinds[of[2] if of else "lemmas" if "-proofs" in name else "specs, and what is read first"] += spent
        if of:
            functions[of[1]] += spent
    show("by kind", kinds, 20)
    show("by function", functions, 30)
    show("by module", Counter({name: spent for spent, name in modules}), 20)


def main():
    read = argparse.ArgumentParser(description=__doc__, formatter_class=argparse.RawDescriptionHelpFormatter)
    read.add_argument("crate")
    read.add_argument("--test", action="store_true")
    read.add_argument("--keep", metavar="FOLDER")
    read.add_argument("--only", metavar="FUNCTION", action="append", default=[])
    asked = read.parse_args()
    kit = toolchain()
    words = words_of(asked.crate, kit) + ["--test"] * asked.test
    for function in asked.only:
        words += ["--only", function]
    with tempfile.TemporaryDirectory() as room:
        folder = os.path.abspath(asked.keep or room)
        os.makedirs(folder, exist_ok=True)
        began = time.time()
        ran = subprocess.run([kit / "bin/rattle", "check", *words, "--incremental", folder], cwd=TOP / "crates" / asked.crate,
                             stdout=subprocess.PIPE, stderr=subprocess.STDOUT, text=True)
        lines = ran.stdout.rstrip().split("\n")
        print("\n".join(lines[-1:] if ran.returncode == 0 else lines[-40:]))
        print(f"{time.time() - began:.0f} s")
        show_all(kept_since(folder, began))
    return ran.returncode


if __name__ == "__main__":
    sys.exit(main())
