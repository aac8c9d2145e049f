#!/bin/sh
# Counts the syncs of the built programs over files of the system, by strace, and compares them with what a barrier is to be.
# A run that sends a package makes one fdatasync of the flash for each barrier, and none else; one that boots and writes nothing makes none.
# A file that `fip create` makes anew is synced once before it takes its name, and is given no mode that it has. It ends with 1 where one of these doesn't hold.
set -eu
cd "$(dirname "$0")/.."
bin=$(pwd)/bin
model=$(pwd)/checks/model
command -v strace >/dev/null || { echo "strace isn't installed" >&2; exit 1; }
work=$(mktemp -d)
trap 'rm -rf "$work"' EXIT
cd "$work"

python3 -B "$model/make_flash.py" flash.img
python3 -B - "$model" <<'PY'
import sys

sys.path.insert(0, sys.argv[1])
from make_packages import manifest_of, of_three, package

with open("p2.fip", "wb") as file:
    file.write(of_three(2))
with open("m2.fip", "wb") as file:
    file.write(package([("manifest", manifest_of(2))]))
PY

failed=0
# counted NAME WANTED: the trace has so many syncs.
counted() {
    name=$1 wanted=$2
    found=$(grep -cE '(fdatasync|fsync)\(' trace || true)
    if [ "$found" = "$wanted" ]; then
        echo "$name: $found syncs"
    else
        echo "DIFFERS: $name: $found syncs, and not $wanted"
        failed=1
    fi
}

echo boot | strace -f -e trace=fdatasync,fsync -o trace "$bin/fwu" flash.img run >out
counted "a boot that writes nothing" 0

# The barriers of docs/MODEL.md, "One update in time": one at the end of each of three images, and two where the metadata is stored.
printf 'boot\nsend p2.fip now\n' | strace -f -e trace=fdatasync,fsync -o trace "$bin/fwu" flash.img run >out
grep -q '^send SUCCESS' out || { cat out; exit 1; }
counted "a sending of three images" 5

# One at the end of each image, whether it is copied or sent.
python3 -B "$model/make_flash.py" flash.img
printf 'boot\nsend m2.fip now partial\n' | strace -f -e trace=fdatasync,fsync -o trace "$bin/fwu" flash.img run >out
grep -q '^send SUCCESS images=1 skipped=0 copied=2' out || { cat out; exit 1; }
counted "a sending of one image of three" 5

printf new >new.bin
"$bin/fip" create out.fip nt-fw=new.bin >out
strace -f -e trace=fdatasync,fsync,rename,renameat,renameat2,chmod,fchmod -o trace "$bin/fip" create out.fip nt-fw=new.bin >out
counted "a file made anew, and its folder" 2
grep -nE 'fdatasync|rename' trace | sed 's/(.*//' | awk '{ print $2 }' | tr '\n' ' ' | grep -q '^fdatasync rename' || {
    echo "DIFFERS: the new file takes its name before it is synced"
    failed=1
}
grep -q chmod trace && {
    echo "DIFFERS: a new file that has the old one's mode is given it again"
    failed=1
}
exit "$failed"
