#!/bin/sh
# The processor time of writing 15 images of 1 MiB in pieces of 4096 bytes through the agent's own calls, beside that of one `sha256sum`
# over the same bytes and one copy of them, as a ratio, in one run. A script has at most 4 MiB of text, and spells two digits for each
# byte, so there is one run for each image: boot, begin, open, 256 writes, commit. The same without the writes is taken off. What of
# the rest is spent on the script's text alone, two digits for each byte, is told by runs of the same lines before any boot, which are
# read whole and then answered `off`.
set -eu
cd "$(dirname "$0")/.."
work=$(mktemp -d -p /dev/shm 2>/dev/null || mktemp -d) # a barrier on a disk would count the disk
trap 'rm -rf "$work"' EXIT

(cd crates/fwu_prog && rt run >"$work/build.log" 2>&1) || { cat "$work/build.log"; exit 1; }
python3 checks/model/make_flash.py "$work/flash.img" --large 1

python3 - "$work" crates/fwu_prog/out/fwu_prog <<'PY'
import hashlib
import os
import resource
import subprocess
import sys
import uuid

work, fwu = sys.argv[1:]
fwu = os.path.abspath(fwu)
os.chdir(work)
ROUNDS = 5
PIECE = 4096

name = str(uuid.UUID(int=0xABC000))
images = [hashlib.shake_128(bytes([100 + i])).digest(1 << 20) for i in range(15)]
with open("images.bin", "wb") as file:
    file.write(b"".join(images))


def script(image, first=("boot",)):
    lines = [*first, "begin", f"open {name} w"]
    lines += [f"write 1 {image[at : at + PIECE].hex()}" for at in range(0, len(image), PIECE)]
    return "\n".join(lines + ["commit 1 now", ""]).encode()


def seconds(words, text=None):
    before = resource.getrusage(resource.RUSAGE_CHILDREN)
    subprocess.run(words, check=True, input=text, stdout=subprocess.DEVNULL)
    after = resource.getrusage(resource.RUSAGE_CHILDREN)
    return after.ru_utime + after.ru_stime - before.ru_utime - before.ru_stime


def least(runs):
    return min(sum(seconds(words, text) for words, text in runs) for _ in range(ROUNDS))


out = subprocess.run([fwu, "flash.img", "run"], check=True, capture_output=True, input=script(images[0])).stdout.decode().splitlines()
assert out[2] == "open SUCCESS handle=1" and set(out[3:-1]) == {"write SUCCESS"} and out[-1] == "commit SUCCESS", out[:5]
writes = least([([fwu, "flash.img", "run"], script(image)) for image in images])
idle = least([([fwu, "flash.img", "run"], script(b""))] * len(images))
text = least([([fwu, "flash.img", "run"], script(image, ())) for image in images]) - least(
    [([fwu, "flash.img", "run"], script(b"", ()))] * len(images)
)
digest = least([(["sha256sum", "images.bin"], None)])
copy = least([(["cp", "images.bin", "copy.bin"], None)])
print(f"writes {(writes - idle) * 1000:.1f} ms, sha256sum {digest * 1000:.1f} ms, cp {copy * 1000:.1f} ms (15 MiB, least of {ROUNDS})")
print(f"ratio {(writes - idle) / (digest + copy):.2f}")
print(f"of which reading the script's text {text * 1000:.1f} ms; without it, ratio {(writes - idle - text) / (digest + copy):.2f}")
PY
