#!/bin/sh
# Builds the library and both C programs (build.sh), and tries them:
#   - on random flashes (COUNT, 2,000 if not set) the host program and `fwu` print the same line and leave the same bytes;
#   - a boot of up to 4 banks of 15 images has room in the buffers of the host program (greatest_boots.py);
#   - the bare aarch64 program under QEMU prints what `fwu` prints on the same flash, of two, three, five and fifteen images;
#   - the library has at most 61,440 bytes of code and constants on aarch64 and 82,000 on x86-64;
#   - it calls no C function but memcpy, memmove, memset and the three of work.c;
#   - by its code no call takes more than 8,192 bytes of stack on aarch64 (STACK sets another bound);
#   - a boot that the bare program makes takes at most STACK too, as it is measured.
# It wants gcc, gcc-aarch64-linux-gnu, qemu-system-arm and python3 of Debian, and ends with 1 where one of these doesn't hold.
set -eu
cd "$(dirname "$0")/../.."
top=$PWD
out=$top/bin/c
stack=${STACK:-8192}
failed=0
for tool in cc aarch64-linux-gnu-gcc qemu-system-aarch64 python3; do
    command -v $tool >/dev/null || { echo "$tool isn't installed" >&2; exit 1; }
done
demo/c/build.sh

fail() {
    echo "FAILS: $*"
    failed=1
}

python3 -B demo/c/random_flashes.py bin/fwu "$out/try" "${COUNT:-2000}" "${SEED:-1}" || failed=1
python3 -B demo/c/greatest_boots.py "$out/try" || failed=1

for most in x86_64=82000 aarch64=61440; do
    processor=${most%=*} text=${most#*=}
    bytes=$(size -A "$out/$processor/libfwu.a" | awk '$1 ~ /^\.(text|rodata)/ { all += $2 } END { print all }')
    data=$(size -A "$out/$processor/libfwu.a" | awk '$1 ~ /^\.(data|bss)/ { all += $2 } END { print all + 0 }')
    echo "$processor: $bytes bytes of code and constants, $data of data"
    [ "$bytes" -le $text ] || fail "$processor: more than $text bytes of code"
    [ "$data" = 0 ] || fail "$processor: $data bytes of data"
    called=$(nm -u "$out/$processor/libfwu.a" | awk '/ U / { print $2 }' | sort -u | tr '\n' ' ')
    [ "$called" = "memcpy memmove memset rattle_alloc rattle_dealloc rattle_realloc " ] || fail "$processor calls $called"
done

# By its code no call takes more stack than the bound.
set -- fwu_boot fwu_show fwu_update fwu_accept fwu_previous fwu_find fwu_manifest fwu_slots fwu_layout fwu_sealed fwu_crc32
python3 -B checks/stack.py "$out/aarch64/libfwu.a" "$@" >"$out/stack" || fail "the stack of a call isn't told by its code"
grep '^fwu_' "$out/stack"
[ "$(grep -c '^fwu_.*: ' "$out/stack")" = $# ] || fail "the stack of a call isn't told"
[ "$(awk '/^fwu_/ && $2 > most { most = $2 } END { print most + 0 }' "$out/stack")" -le "$stack" ] ||
    fail "a call takes more than $stack bytes of stack"

work=$(mktemp -d)
trap 'rm -rf "$work"' EXIT
cd "$work"

# What `fwu` prints of five boots, and of one more when a byte of the first replica has changed.
print_wanted() {
    for _ in 1 2 3 4 5; do "$top/bin/fwu" flash.img boot; done >wanted
    python3 -B - <<'PY'
with open("flash.img", "r+b") as file:
    file.seek(4096)
    byte = file.read(1)[0]
    file.seek(4096)
    file.write(bytes([byte ^ 1]))
PY
    "$top/bin/fwu" flash.img boot >>wanted
}

# The bare program's boots of this flash print the same, and take no more stack than the bound.
try_bare() {
    cp flash.img bare.img
    bytes=$(stat -c %s bare.img)
    print_wanted
    timeout 120 qemu-system-aarch64 -M virt -m 512 -cpu cortex-a57 -nographic -nic none -kernel "$out/bare.elf" \
        -device loader,file=bare.img,addr=0x48000000,force-raw=on \
        -device "loader,addr=0x47fffff8,data=$bytes,data-len=8" >said </dev/null || fail "the bare program doesn't end"
    grep '^boot ' said >lines || true
    if diff wanted lines; then
        echo "bare aarch64, $1: $(grep -c . lines) boots as by fwu"
    else
        fail "the bare program's lines differ: $1"
    fi
    depth=$(awk '/^stack / { print $2 + 0 }' said)
    echo "bare aarch64, $1: ${depth:-no} bytes of stack, that of its callers with it"
    [ "${depth:-999999}" -le "$stack" ] || fail "a boot takes more than $stack bytes of stack: $1"
}

# A flash whose bank 1 is on trial: five boots use up the trials and fall back, and the sixth repairs a replica.
python3 -B "$top/checks/model/make_flash.py" flash.img
python3 -B - "$top/checks/model" <<'PY'
import sys

sys.path.insert(0, sys.argv[1])
from make_packages import of_three

with open("p6.fip", "wb") as file:
    file.write(of_three(6))
PY
printf 'boot\nsend p6.fip trial\n' | "$top/bin/fwu" flash.img run >/dev/null
try_bare "2 images"

# Flashes whose bank has more images of 1 MiB: where there are three, `fwu` hashes them side by side.
for count in 3 5 15; do
    python3 -B "$top/checks/model/make_flash.py" flash.img --large $count
    try_bare "$count images"
done
exit $failed
