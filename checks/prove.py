#!/usr/bin/env python3
"""Proves crates while one works on them, over a store of proved libraries that all clones of this repository share.

    prove.py build [CRATE ..]         these libraries, or all, and what they stand on
    prove.py check CRATE [FLAG ..]    one crate as it stands; FLAG goes to `rattle check`: --only FUNCTION, --allow-holes, --start FUNCTION,
                                      --fix-imports, --test
    prove.py test CRATE               proves the tests of a crate, builds and runs them
    prove.py program CRATE            proves and builds a program, as crates/CRATE/out/CRATE.llvm
    prove.py edits CRATE [EDIT ..]    tries wrong bodies, those of crates/CRATE/must-fail where none is named: the prover has to refuse each
    prove.py spare CRATE              names the answers of its proofs that the prover finds by itself, with half of its limits: they can go
    prove.py stale                    names the libraries that the store lacks

A library is found by a sum of its texts and of all that it stands on, so what was proved with the same texts is proved once, in
whichever clone. What a check of a crate kept stays in its `out`, and from its first time in the store on other clones begin with it:
a crate over changed libraries is then mostly read again, in some 20 to 60 seconds, and not proved from nothing. At most as many provers
run at once as there are processors, over all clones; a further one waits. It is no gate: that is `rt ci`, from nothing.
"""
import concurrent.futures
import contextlib
import fcntl
import functools
import glob
import hashlib
import os
import re
import shutil
import subprocess
import sys
import tempfile
import time

TOP = os.path.dirname(os.path.dirname(os.path.abspath(__file__)))
STORE = os.path.join(os.environ.get("XDG_CACHE_HOME") or os.path.expanduser("~/.cache"), "fwu-and-fip", "store")
KIT = os.path.dirname(os.path.dirname(os.path.realpath(shutil.which("rt") or sys.exit("rt isn't installed"))))
PROVERS = os.cpu_count()
TEXTS = ("src", "specs", "proofs")
# a proof file names what a wrong body took away, which says nothing of the contract
BY_NAME = r"(note: )?(\./)?proofs/.*(has no field|is not in scope|has no `|was not admitted)"


def crates_named():
    """Of each crate of crates.txt the libraries that it names, and which of them are static."""
    named, static = {}, set()
    with open(f"{TOP}/crates.txt", encoding="utf-8") as lines:
        for line in lines:
            head, colon, tail = line.partition("#")[0].partition(":")
            words = head.split()
            if colon:
                named[words[0]] = tail.split()
                static |= {words[0]} if "staticlib" in words else set()
    return named, static


NAMED, STATIC = crates_named()


def folder_of(crate):
    return f"{TOP}/crates/{crate}"


def own(crate):
    return [name for name in NAMED[crate] if name in NAMED]


def below(crate):
    """All that a crate stands on, lowest first."""
    found = []
    for name in own(crate):
        found += [it for it in [*below(name), name] if it not in found]
    return found


def is_library(crate):
    return crate not in STATIC and not os.path.isfile(f"{folder_of(crate)}/src/main.rt")


@functools.lru_cache(None)
def sum_of(crate):
    """A sum of the toolchain, of a crate's texts, and of all that it stands on."""
    with open(f"{KIT}/KIT-ID", "rb") as identity:
        total = hashlib.sha256(identity.read())
    total.update(" ".join([crate, *NAMED[crate]]).encode())
    for part in TEXTS:
        for at, folders, files in os.walk(f"{folder_of(crate)}/{part}"):
            folders.sort()
            for name in sorted(files):
                with open(f"{at}/{name}", "rb") as text:
                    total.update(os.path.relpath(f"{at}/{name}", TOP).encode() + text.read())
    for name in own(crate):
        total.update(sum_of(name).encode())
    return total.hexdigest()[:24]


def place_of(crate):
    return f"{STORE}/libraries/{crate}/{sum_of(crate)}"


def library_of(crate):
    return f"{place_of(crate)}/{crate}.rlib"


def words_of(crate, tests=False):
    """The words by which the prover finds a crate, or its tests, which make a program also of a static library."""
    words = ["--crate-name", crate, "src/lib.rt" if os.path.isfile(f"{folder_of(crate)}/src/lib.rt") else "src/main.rt"]
    for name in ["std", *NAMED[crate]]:
        words += ["--extern", f"{name}={library_of(name) if name in NAMED else f'{KIT}/rlibs/{name}.rlib'}"]
    for folder in [f"{KIT}/rlibs", *map(place_of, below(crate))]:
        words += ["-L", f"dependency={folder}"]
    words += ["--antt-project", f"{KIT}/rattle/logic/antt-project.json", "--logic-built", f"{KIT}/logic_built", "--links", f"{crate}="]
    return [*words, *(["--crate-type", "staticlib"] if crate in STATIC and not tests else []), "--jobs", "1"]


@contextlib.contextmanager
def locked(name):
    path = f"{STORE}/locks/{name}"
    os.makedirs(os.path.dirname(path), exist_ok=True)
    with open(path, "w", encoding="utf-8") as lock:
        fcntl.flock(lock, fcntl.LOCK_EX)
        yield


@contextlib.contextmanager
def one_prover():
    """Waits until fewer provers run than there are processors."""
    os.makedirs(f"{STORE}/locks", exist_ok=True)
    while True:
        for number in range(PROVERS):
            with open(f"{STORE}/locks/prover-{number}", "w", encoding="utf-8") as lock:
                try:
                    fcntl.flock(lock, fcntl.LOCK_EX | fcntl.LOCK_NB)
                except OSError:
                    continue
                yield
                return
        time.sleep(0.3)


def rattle(folder, words, out=None):
    how = {"cwd": folder, "stdin": subprocess.DEVNULL, "stdout": out, "stderr": subprocess.STDOUT if out else None}
    with one_prover():
        return subprocess.run([f"{KIT}/bin/rattle", *words], check=False, **how).returncode


def kept_of(crate):
    """Where a crate's checks keep their work; at first that of another clone, if there is any."""
    kept, first = f"{folder_of(crate)}/out/incremental", f"{STORE}/kept/{crate}"
    if not os.path.isdir(kept) and os.path.isdir(first):
        shutil.copytree(first, kept)
    return ["--incremental", kept]


def prove_library(crate):
    """Puts a library into the store. Whether it is proved."""
    with locked(f"{crate}-{sum_of(crate)}"):
        if os.path.isdir(library_of(crate)):
            return True
        os.makedirs(place_of(crate), exist_ok=True)
        began, log = time.monotonic(), f"{place_of(crate)}/log"
        with tempfile.TemporaryDirectory(dir=STORE) as room, open(log, "wb") as out:
            status = rattle(folder_of(crate), ["build", *words_of(crate), *kept_of(crate), "-o", f"{room}/made"], out)
            if status == 0:
                shutil.move(f"{room}/made", library_of(crate))
    print(f"{crate} {'NOT ' * bool(status)}proved ({time.monotonic() - began:.0f} s){f': {log}' * bool(status)}", flush=True)
    with locked("kept"):
        if status == 0 and not os.path.isdir(f"{STORE}/kept/{crate}"):
            shutil.copytree(f"{folder_of(crate)}/out/incremental", f"{STORE}/kept/{crate}")
    return status == 0


def build(crates):
    """Proves libraries and what they stand on, side by side, each once those below it are proved. Whether all are."""
    wanted = [it for crate in crates for it in [*below(crate), crate] if is_library(it)]
    proofs = {}
    with concurrent.futures.ThreadPoolExecutor(len(NAMED)) as pool:
        for crate in dict.fromkeys(wanted):
            waits = [proofs[name] for name in own(crate)]
            proofs[crate] = pool.submit(lambda it=crate, waits=waits: all([wait.result() for wait in waits]) and prove_library(it))
    return all(proof.result() for proof in proofs.values())


def link(crate, made, program):
    system = [f"{KIT}/c/libos_c.a", f"{KIT}/c/liblibc_c.a"]
    words = ["--target", "x86_64-unknown-linux-gnu", "--toolchain", f"{KIT}/toolchain", "-o", program, made, *system]
    return subprocess.run([f"{KIT}/bin/rattle-link", *words], cwd=folder_of(crate), check=False).returncode


def compiled(crate, program, flags):
    """Proves and builds a program, or tests with that flag. The status."""
    program = f"{folder_of(crate)}/out/{program}"
    words = ["build", *words_of(crate, "--test" in flags), *flags, *kept_of(crate), "--toolchain", f"{KIT}/toolchain", "--backend", "llvm", "-o", f"{program}.o"]
    os.makedirs(os.path.dirname(program), exist_ok=True)
    return rattle(folder_of(crate), words) or link(crate, f"{program}.o", program)


def test(crate):
    with tempfile.TemporaryDirectory() as room:
        run = [f"{KIT}/bin/rattle-test", "--seconds", "60", f"{folder_of(crate)}/out/{crate}_tests"]
        return compiled(crate, f"{crate}_tests", ["--test"]) or subprocess.run(run, cwd=room, check=False).returncode


def edited(crate, edit, room):
    """Makes a copy of a crate with an edit."""
    for part in TEXTS:
        if os.path.isdir(f"{folder_of(crate)}/{part}"):
            shutil.copytree(f"{folder_of(crate)}/{part}", f"{room}/{part}")
    path = old = None
    with open(edit, encoding="utf-8") as lines:
        for line in lines:
            word, _, rest = line.rstrip("\n").partition(": ")
            if word == "file":
                path = f"{room}/{rest}"
            elif word == "old":
                old = rest
            elif word == "new":
                with open(path, "r+", encoding="utf-8") as file:
                    text = file.read()
                    if text.count(old) != 1:
                        sys.exit(f"{edit}: the old text stands {text.count(old)} times in {path}")
                    file.seek(0)
                    file.truncate()
                    file.write(text.replace(old, rest))


def is_refused(crate, edit):
    with tempfile.TemporaryDirectory(dir=STORE) as room:
        edited(crate, edit, room)
        shutil.copytree(kept_of(crate)[1], f"{room}/kept")
        with open(f"{room}/log", "w+b") as out:
            status = rattle(room, ["check", *words_of(crate), "--incremental", f"{room}/kept"], out)
            out.seek(0)
            said = out.read().decode(errors="replace").strip().split("\n")
    word = verdict(status, said)
    first = next((line for line in said if ": error" in line), said[-1])
    print(f"{word}: {os.path.basename(edit)}: {first[:160]}", flush=True)
    return word == "refused"


def verdict(status, said):
    """What a try of a wrong body came to, by the prover's status and its lines."""
    if status == 0:
        return "NOT REFUSED"
    if status != 1 or not said[-1].startswith("logic=not-proved"):
        return "NOT TRIED"
    if any("does not cover" in line for line in said):
        return "NOT COVERED, so no contract was asked"
    told = [line for line in said if re.match(r"(note: )?\S+:\d+:\d+:", line) and (": error" in line or line.startswith("note: "))]
    by_name = told and all(re.match(BY_NAME, line) for line in told)
    return "REFUSED BY A NAME ALONE, which a proof file cites" if by_name else "refused"


def edits(crate, named):
    folder = f"{folder_of(crate)}/must-fail"
    given = named or [f"{folder}/{name}" for name in sorted(os.listdir(folder)) if name.endswith(".edit")]
    if not os.path.isdir(kept_of(crate)[1]) and rattle(folder_of(crate), ["check", *words_of(crate), *kept_of(crate)]):
        return 1
    return 0 if all([is_refused(crate, os.path.abspath(edit)) for edit in given]) else 1


def asked_for(lines):
    """The answers that the prover asks for, by their files."""
    asked, file = {}, None
    for line in lines:
        help_line = re.match(r"help: write \./(proofs/\S+/Answers\.antt) with these lines", line)
        answer = re.match(r"    pub (\S+) : goal\.", line)
        if help_line:
            file = help_line[1]
        elif answer and file:
            asked.setdefault(file, set()).add(answer[1])
    return asked


def answers_in(folder):
    """The answers of a crate's proofs, by their files."""
    files = glob.glob("proofs/**/Answers.antt", root_dir=folder, recursive=True)
    return {file: re.findall(r"^pub (\S+) : goal\.", open(f"{folder}/{file}", encoding="utf-8").read(), re.M) for file in sorted(files)}


def is_for(asked, answer):
    """Whether an answer is to what is asked, whole or in part."""
    return asked == answer or asked.startswith(f"{answer}-") or answer.startswith(f"{asked}-")


def spare(crate):
    """Proves a copy of a crate without its answers, and names those that the prover does not ask for. Of a file in which it asks by other
    names than the answers have, it names that alone."""
    with tempfile.TemporaryDirectory(dir=STORE) as room:
        for part in TEXTS:
            if os.path.isdir(f"{folder_of(crate)}/{part}"):
                shutil.copytree(f"{folder_of(crate)}/{part}", f"{room}/{part}", ignore=shutil.ignore_patterns("Answers.antt"))
        with open(f"{room}/log", "w+b") as out:
            rattle(room, ["check", *words_of(crate), "--allow-holes", "--margin"], out)
            out.seek(0)
            said = out.read().decode(errors="replace").strip().split("\n")
    if not said[-1].startswith("holes="):
        print(f"{crate}: the prover came to no end, so nothing is known: {said[-1][:160]}")
        return 1
    asked = asked_for(said)
    for file, answers in answers_in(folder_of(crate)).items():
        other = [it for it in asked.get(file, ()) if not any(is_for(it, answer) for answer in answers)]
        if other:
            print(f"{file}: asks by another name, {other[0]}")
            continue
        for answer in answers:
            if not any(is_for(it, answer) for it in asked.get(file, ())):
                print(f"{file}: {answer}")
    return 0


def main(words):
    command, crates = (words or [""])[0], words[1:]
    if command == "stale":
        print(*[it for it in NAMED if is_library(it) and not os.path.isdir(library_of(it))])
        return 0
    if command == "build":
        return 0 if build(crates or NAMED) else 1
    if command not in ("check", "test", "program", "edits", "spare") or not crates or crates[0] not in NAMED:
        sys.exit(__doc__)
    crate, rest = crates[0], crates[1:]
    os.makedirs(STORE, exist_ok=True)
    if not build(below(crate)):
        return 1
    if command == "check":
        return rattle(folder_of(crate), ["check", *words_of(crate), *kept_of(crate), *rest])
    if command == "program":
        return compiled(crate, f"{crate}.llvm", [])
    if command == "spare":
        return spare(crate)
    return test(crate) if command == "test" else edits(crate, rest)


if __name__ == "__main__":
    sys.exit(main(sys.argv[1:]))
