#!/usr/bin/env python3
"""Boots and updates random flashes by `fwu` and by libfwu.a, and compares what is said and every byte.

    random_flashes.py FWU TRY COUNT [SEED]

FWU is the program `fwu`, TRY that of try.c. A flash is what a random script of boots, sendings, acceptances and losses of power
leaves, of every other one with some bits flipped. For every tenth flash power goes in each step, after 0, 1, 8, 16, 100 and all
but one of its bytes; then both boot again, and a bank starts again where one started before. Where a bank starts, `accept` or
`previous` follows, by both. What a flash shows is compared too, and that what is started is found good.

Each third flash is updated by both too, by a random package, which may be none, too old, too large or not complete. For each 15th
power goes in each step of the update, and then a bank starts again.

Last both boot flashes whose bank has 3, 5 and 15 images of 1 MiB, whole and with the last byte of the last image changed: `fwu`
hashes these side by side, and the library one after another. It ends with 1 at the first difference. """
import os
import random
import subprocess
import sys
import tempfile

sys.dont_write_bytecode = True
TOP = os.path.dirname(os.path.dirname(os.path.dirname(os.path.abspath(__file__))))
sys.path.insert(0, os.path.join(TOP, "checks", "model"))
from make_packages import manifest_of, of_three, package, pattern  # noqa: E402

FWU, TRY = (os.path.abspath(word) for word in sys.argv[1:3])
COUNT = int(sys.argv[3])
SEED = int(sys.argv[4]) if len(sys.argv) > 4 else 1
BLOCK = 4096
ERASE, PROGRAM, BARRIER = 1, 2, 3
draw = random.Random(SEED)


def read(name):
    with open(name, "rb") as file:
        return file.read()


def write(name, data):
    with open(name, "wb") as file:
        file.write(data)


def said(*words, text=""):
    """What a program prints."""
    done = subprocess.run(words, input=text, capture_output=True, text=True)
    return done.stdout


def write_flash(*words):
    subprocess.run([sys.executable, "-B", os.path.join(TOP, "checks", "model", "make_flash.py"), *words], check=True)


def random_line():
    name = draw.choice(["manifest", "tb-fw", "nt-fw"])
    package = f"p{draw.randint(1, 9)}.fip"
    return draw.choice([
        "boot", "boot", "boot", "previous", "begin", "cancel", f"accept {name}",
        f"cut {draw.randint(1, 12)} {draw.choice([0, 8, 16, 100, 4096])}",
        f"cut {draw.randint(1, 60)} {draw.randint(0, 4096)}",
        f"send {package} trial", f"send {package} trial", f"send {package} now", f"open {name} w",
    ])


def flip_bits(data):
    data = bytearray(data)
    for _ in range(draw.choice([1, 1, 2, 5])):
        block = draw.choice([0, 1, 2, 1, 2, 3, 4, 5, 6, 8, 9, 11, 15, 16, 18])
        at = block * BLOCK + draw.choice([draw.randrange(64), draw.randrange(BLOCK)])
        data[at] ^= 1 << draw.randrange(8)
    return bytes(data)


def random_flash(begin, number):
    write("made.img", begin)
    lines = ["boot"] + [random_line() for _ in range(draw.randint(1, 14))]
    said(FWU, "made.img", "run", text="\n".join(lines) + "\n")
    made = read("made.img")
    if number % 2:
        made = flip_bits(made)
    if number % 100 == 99:
        made = made[: draw.choice([0, 1, BLOCK, 7 * BLOCK, 8 * BLOCK, 15 * BLOCK, len(made) - 1])]
    return made


def both(made, what):
    """Boots a flash by both, and gives the line and the bytes after."""
    write("a.img", made)
    write("b.img", made)
    line, other = said(FWU, "a.img", "boot"), said(TRY, "b.img")
    after = read("a.img")
    if not made or len(made) % BLOCK or len(made) < 8 * BLOCK:
        line = other if other == "flash cannot be used\n" or not made else line
    if line != other or after != read("b.img"):
        write("differs.img", made)
        sys.exit(f"DIFFERS: {what}: `{line.strip()}` and `{other.strip()}`; seed {SEED}, {os.path.abspath('differs.img')}")
    return line, after


def both_show(made, line, what):
    """What a flash shows, by both; and the bank that a boot of it starts is found good, of that version."""
    write("a.img", made)
    shown, other = said(FWU, "a.img", "show"), said(TRY, "a.img", "show")
    if not made or len(made) % BLOCK or len(made) < 8 * BLOCK:
        shown = other if other == "flash cannot be used\n" or not made else shown
    if shown != other or read("a.img") != made:
        write("differs.img", made)
        sys.exit(f"DIFFERS: {what}: `{shown.strip()}` and `{other.strip()}`; seed {SEED}, {os.path.abspath('differs.img')}")
    if line.startswith("boot bank="):
        words = dict(word.split("=") for word in line.split() if "=" in word)
        found = said(TRY, "a.img", "banks").splitlines()[int(words["bank"])]
        if found != f"bank {words['bank']} verdict=0 version={words['version']} image=0":
            sys.exit(f"DIFFERS: {what}: `{line.strip()}` and `{found}`; seed {SEED}")


def call(made, line, what):
    """A call behind the boot by both. Gives whether it succeeded."""
    bank = line.split()[1].partition("=")[2]
    image = draw.randrange(3)
    name = ["manifest", "tb-fw", "nt-fw"][image]
    asked, words = draw.choice([(f"accept {name}", ["accept", bank, str(image)]), ("previous", ["previous", bank])])
    write("a.img", made)
    write("b.img", made)
    reply = said(FWU, "a.img", "run", text=f"boot\n{asked}\n").splitlines()[1].split()[-1]
    said(TRY, "b.img")
    booted = read("b.img")
    answer = said(TRY, "b.img", *words)
    number = {"SUCCESS": 0, "DENIED": 16, "UNKNOWN": 20}.get(reply)
    if answer != f"{words[0]} {number}\n" or read("a.img") != read("b.img"):
        write("differs.img", made)
        sys.exit(f"DIFFERS: {what}: {asked}: `{reply}` and `{answer.strip()}`; seed {SEED}, {os.path.abspath('differs.img')}")
    for command in ("fronts", "scarce"):
        write("list.img", booted)
        done = said(TRY, "list.img", *words, command)
        if not done.startswith(f"{command} ") or read("list.img") != booted:
            sys.exit(f"DIFFERS: {what}: {asked}: {done.strip()}; seed {SEED}")
    return reply == "SUCCESS"


def cut_everywhere(made, line, what):
    """Power goes in each step. Gives how many losses were tried."""
    write("list.img", made)
    steps = [[int(word) for word in row.split()] for row in said(TRY, "list.img", "list").splitlines()[1:]]
    losses = 0
    for number, (kind, _, length) in enumerate(steps):
        for landed in (0,) if kind == BARRIER else (0, 1, 8, 16, 100, length - 1):
            write("cut.img", made)
            if said(TRY, "cut.img", "cut", str(number), str(landed)) != "cut\n":
                sys.exit(f"DIFFERS: {what}: no loss in step {number}")
            again, _ = both(read("cut.img"), f"{what}, a loss in step {number} after {landed} bytes")
            if line.startswith("boot bank=") and not again.startswith("boot bank="):
                sys.exit(f"DIFFERS: {what}: after a loss in step {number} no bank starts")
            losses += 1
    return losses


def packages():
    """The packages of updates, by their names: nine that are whole, and others that are refused."""
    names = []
    for version in range(1, 10):
        write(f"p{version}.fip", of_three(version))
        names.append(f"p{version}.fip")
    long = pattern(2 * BLOCK - 5)
    for name, data in {
        "long.fip": of_three(7, long, b"hello"),
        "large.fip": of_three(7, pattern(2 * BLOCK + 1), b"hello"),
        "empty.fip": of_three(8, b"", b"hello"),
        "other.fip": of_three(7, b"abc", b"hello", manifest_of(7, b"abd", b"hello")),
        "missing.fip": package([("manifest", manifest_of(7)), ("tb-fw", b"abc")]),
        "more.fip": package([("00000000-0000-0000-0000-000000000001", b"x"), ("nt-fw", b"hello"), ("tb-fw", b"abc"), ("manifest", manifest_of(7))]),
        "cut.fip": of_three(7)[:100],
        "none.fip": bytes(8),
    }.items():
        write(name, data)
        names.append(name)
    return names


def is_on_trial(made):
    """Whether the active bank of a flash is on trial."""
    write("shown.img", made)
    words = dict(word.split("=") for word in said(FWU, "shown.img", "show").split()[1:] if "=" in word)
    return "active" in words and words["banks"].split(",")[int(words["active"])] == "valid"


# What `fwu` says in a script, from its front on, and the number that the library answers.
NUMBERS = {
    "boot bad-layout": 1, "boot no-metadata": 2, "boot no-bank": 3, "send SUCCESS": 0, "send begin DENIED": 16,
    "send end AUTH_FAIL": 17, "send bad-package": 18, "send missing": 19, "send too-large": 19,
}


def number_of(lines):
    line = next((line for line in lines if not line.startswith("boot bank=")), "")
    return next((number for front, number in NUMBERS.items() if line.startswith(front)), None)


def both_update(made, name, how, what):
    """Updates a flash by both, and gives the answer."""
    write("a.img", made)
    write("b.img", made)
    other = said(TRY, "b.img", "update", name, how)
    after = read("b.img")
    if is_on_trial(made):
        if (other, after) != ("update 16\n", made):
            sys.exit(f"DIFFERS: {what}: an update of a bank on trial is not denied; seed {SEED}")
        return 16
    said_by_fwu = said(FWU, "a.img", "run", text=f"boot\nsend {name} {how}\n")
    number = number_of(said_by_fwu.splitlines())
    if other != f"update {number}\n" or after != read("a.img"):
        write("differs.img", made)
        sys.exit(f"DIFFERS: {what}: `{said_by_fwu.strip()}` and `{other.strip()}`; seed {SEED}, {os.path.abspath('differs.img')}")
    for command in ("fronts", "scarce"):
        write("list.img", made)
        done = said(TRY, "list.img", "update", name, how, command)
        if not done.startswith(f"{command} ") or read("list.img") != made:
            sys.exit(f"DIFFERS: {what}: {done.strip()}; seed {SEED}")
    return number


def cut_update(made, name, how, what):
    """Power goes in each step of an update. Gives how many losses were tried."""
    write("list.img", made)
    before = said(TRY, "list.img")
    write("list.img", made)
    steps = [[int(word) for word in row.split()] for row in said(TRY, "list.img", "update", name, how, "list").splitlines()[1:]]
    losses = 0
    for number, (kind, _, length) in enumerate(steps):
        for landed in (0,) if kind == BARRIER else (0, 1, 100, length - 1):
            write("cut.img", made)
            if said(TRY, "cut.img", "update", name, how, "cut", str(number), str(landed)) != "cut\n":
                sys.exit(f"DIFFERS: {what}: no loss in step {number}")
            again, _ = both(read("cut.img"), f"{what}, a loss in step {number} after {landed} bytes")
            if before.startswith("boot bank=") and not again.startswith("boot bank="):
                sys.exit(f"DIFFERS: {what}: after a loss in step {number} no bank starts; seed {SEED}")
            losses += 1
    return losses


def flash_size_is_checked():
    """Each length that is no flash's is refused, by a boot and by an update, and no other length is."""
    for length in (1, BLOCK - 1, BLOCK, 7 * BLOCK, 8 * BLOCK - 1, 8 * BLOCK, 8 * BLOCK + 1, 65536 * BLOCK, 65537 * BLOCK):
        with open("sized.img", "wb") as file:
            file.truncate(length)
        is_flash = length % BLOCK == 0 and 8 <= length // BLOCK <= 65536
        answers = said(TRY, "sized.img").strip(), said(TRY, "sized.img", "update", "p1.fip", "now").strip()
        if answers != (("boot bad-layout 2", "update 1") if is_flash else ("flash cannot be used", "update 6")):
            sys.exit(f"DIFFERS: a flash of {length} bytes: {answers}")
    os.remove("sized.img")


def many_images(count):
    write_flash("many.img", "--large", str(count))
    made = bytearray(read("many.img"))
    both(bytes(made), f"{count} images")
    made[BLOCK * (8 + 1 + 256 * count) - 1] ^= 1
    both(bytes(made), f"{count} images, the last one changed")


def main():
    names = packages()
    write_flash("begin.img")
    begin = read("begin.img")
    flash_size_is_checked()
    ends, updates, losses, lists, calls, done = {}, {}, 0, 0, 0, 0
    for number in range(COUNT):
        made = random_flash(begin, number)
        line, _ = both(made, f"flash {number}")
        kind = " ".join(line.split()[:2]).split("=")[0] + (" fallback" if "fallback" in line else "")
        ends[kind] = ends.get(kind, 0) + 1
        both_show(made, line, f"flash {number}")
        if line.startswith("boot bank="):
            calls += 1
            done += call(made, line, f"flash {number}")
        write("list.img", made)
        if len(made) == len(begin):
            fronts = said(TRY, "list.img", "fronts")
            if not fronts.startswith("fronts "):
                sys.exit(f"DIFFERS: flash {number}: {fronts.strip()}; seed {SEED}")
            lists += int(fronts.split()[1])
        if number % 10 == 0:
            losses += cut_everywhere(made, line, f"flash {number}")
        if number % 3 == 0 and len(made) == len(begin):
            name, how = draw.choice(names), draw.choice(["now", "trial"])
            answer = both_update(made, name, how, f"flash {number}, {name} {how}")
            updates[answer] = updates.get(answer, 0) + 1
            if number % 15 == 0:
                losses += cut_update(made, name, how, f"flash {number}, {name} {how}")
    for count in (3, 5, 15):
        many_images(count)
    for kind in sorted(ends):
        print(f"{ends[kind]:6} {kind}")
    for answer in sorted(updates):
        print(f"{updates[answer]:6} update {answer}")
    print(f"{calls} calls behind a boot, of which {done} were done")
    print(f"{COUNT} flashes and 6 of many images, {lists} shorter lists and {losses} losses: the same answers and bytes")


with tempfile.TemporaryDirectory() as work:
    os.chdir(work)
    main()
