#!/bin/sh
# Packages of `fip create` beside those of Trusted Firmware-A's fiptool, byte for byte, where both promise the same: the parts in
# fiptool's order, none of them empty.
set -eu
cd "$(dirname "$0")/.."
command -v fiptool >/dev/null || { echo "skipped: fiptool (Debian's arm-trusted-firmware-tools) is not installed"; exit 0; }
. bench/build_fip.sh
cd "$work"
printf hello >h.bin
printf xyz >s3.bin
head -c 100000 /dev/zero | tr '\0' 'a' >large.bin

same() {
    name=$1
    cmp "$name.theirs" "$name.ours" && echo "same bytes: $name"
}

fiptool create --tb-fw h.bin --nt-fw s3.bin two.theirs
"$fip" create two.ours tb-fw=h.bin nt-fw=s3.bin >/dev/null
same two
fiptool create --align 16 --tb-fw h.bin --nt-fw s3.bin aligned.theirs
"$fip" create --align 16 aligned.ours tb-fw=h.bin nt-fw=s3.bin >/dev/null
same aligned
fiptool create --align 4096 --tb-fw large.bin --soc-fw h.bin --tos-fw s3.bin --nt-fw large.bin pages.theirs
"$fip" create --align 4096 pages.ours tb-fw=large.bin soc-fw=h.bin tos-fw=s3.bin nt-fw=large.bin >/dev/null
same pages
cp two.theirs updated.theirs
fiptool update --nt-fw large.bin updated.theirs
"$fip" update two.theirs updated.ours nt-fw=large.bin >/dev/null
same updated
"$fip" unpack aligned.theirs out- >/dev/null
cmp h.bin out-5ff9ec0b-4d22-3e4d-a544-c39d81c73f0a.bin && echo "same payload"
