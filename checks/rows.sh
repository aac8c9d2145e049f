#!/bin/sh
# Tries bin/fip and bin/fwu: first the rows of crates/rows_prog/data over files of a folder, by checks/rows.py, and then the
# rows below, which only files and streams of the system can show, or which go over each loss of power. What they print, their
# exit status and the bytes that they leave are compared with what docs/USAGE.md, docs/FORMATS.md and docs/MODEL.md say. No
# expected text or byte comes from a run of the programs. It prints a line for each row that holds, and of each other one what
# was expected and what was found. It goes over all of them, and ends with 1 where one doesn't hold. It builds nothing: it wants
# both programs (demo/build.sh) and Python.
set -u
exec </dev/null
cd "$(dirname "$0")/.." || exit 1
top=$(pwd)
bin=$top/bin
for program in fip fwu; do
    [ -s "$bin/$program" ] && [ -x "$bin/$program" ] && continue
    echo "bin/$program isn't there: demo/build.sh proves and builds both programs, and puts them into bin/" >&2
    exit 1
done
work=$(mktemp -d) || exit 1
trap 'rm -rf "$work"' EXIT
data=$top/crates/rows_prog/data
failed=0
python3 -B checks/rows.py "$bin" "$data"/*.rows || failed=1
mkdir "$work/files" && python3 -B checks/rows.py --files "$work/files" "$data/common.rows" && cd "$work/files" || exit 1

fip() {
    "$bin/fip" "$@"
}

fwu() {
    "$bin/fwu" "$@"
}

rows=0

# text TEXT: prints it with its last line's end, or nothing where it is empty.
text() {
    [ -z "$1" ] || printf '%s\n' "$1"
}

# row NAME STATUS TEXT COMMAND..: the command ends with this status, and prints this text.
row() {
    row=$1 wanted=$2
    text "$3" >"$work/wanted"
    shift 3
    command=$*
    status=0
    "$@" >"$work/printed" 2>"$work/errors" || status=$?
    rows=$((rows + 1))
    if [ "$status" = "$wanted" ] && cmp -s "$work/wanted" "$work/printed"; then
        echo "$row"
        return
    fi
    failed=$((failed + 1))
    echo "DIFFERS: $row"
    echo "  by: $command"
    echo "  expected, with status $wanted:"
    sed 's/^/    /' "$work/wanted"
    echo "  found, with status $status:"
    cat "$work/printed" "$work/errors" | sed 's/^/    /'
}

# same NAME FILE FILE: both files have the same bytes.
same() {
    row "$1" 0 '' cmp "$2" "$3"
}

# Lines that come often.
tb_fw=5ff9ec0b-4d22-3e4d-a544-c39d81c73f0a
fip_usage='usage: fip info|create|update|remove|unpack|manifest|capsule|package'
first='boot bank=0 version=1 trials=0 counter=1'
listed="serial=12345678 flags=0 entries=1 size=101
$tb_fw offset=96 size=5 flags=0"

# ---- Streams

row 'a list of a package from the standard input, without any word' 0 "$listed" fip <a.fip

# in_pieces COUNT: lists the package, which comes in pieces of so many bytes.
in_pieces() {
    dd if=a.fip bs="$1" 2>/dev/null | fip info -
}
row 'a package that comes byte by byte' 0 "$listed" in_pieces 1
row 'a package that comes in pieces of seven bytes' 0 "$listed" in_pieces 7

printf 'discover\ncut 1 0\nshow\n' >off.script
row 'a script without any word' 0 'discover off
cut ok
show off' fwu <off.script

# to_full COMMAND..: the standard output is on a full disk.
to_full() {
    "$@" >/dev/full
}
# without_output COMMAND.., without_input COMMAND..: a stream is closed.
without_output() {
    "$@" >&-
}
without_input() {
    "$@" <&-
}
cp formatted.img flash.img
row 'a boot whose line a full disk does not take' 3 '' to_full fwu flash.img boot
row 'a boot with a closed standard output' 3 '' without_output fwu flash.img boot
row 'a script with a closed standard input' 2 'read-fault' without_input fwu flash.img run
row 'a list that a full disk does not take' 3 '' to_full fip info a.fip
row 'a list with a closed standard output' 3 '' without_output fip info a.fip

# ---- Files that are written

# limited COMMAND..: no file may have more than 1024 bytes.
limited() (
    trap '' XFSZ
    ulimit -f 2
    "$@"
)

fip capsule a.fip a.cap >/dev/null
cp a.fip both.fip
chmod 640 both.fip
row 'a capsule in the place of its package' 0 'capsule items=1 size=89' fip capsule both.fip both.fip
same 'its bytes' a.cap both.fip
row 'it has the mode of the old file' 0 640 stat -c %a both.fip

# another_group: a group that a file may be given, and that a new one doesn't have; none where there is none.
another_group() {
    [ "$(id -u)" != 0 ] || echo 12345
    id -G | tr ' ' '\n' | grep -vx "$(id -g)"
}
group=$(another_group | head -n 1)
if [ -n "$group" ]; then
    cp a.fip owned.fip
    chgrp "$group" owned.fip
    row 'a capsule in the place of a package of another group' 0 'capsule items=1 size=89' fip capsule a.fip owned.fip
    same 'its bytes' a.cap owned.fip
    row 'it has the group of the old file' 0 "$group" stat -c %g owned.fip
fi

head -c 3000 /dev/zero >long.zeros
row 'a file that cannot be written' 2 file-fault limited fip create both.fip tb-fw=long.zeros
same 'the old file is there' a.cap both.fip
row 'and no new one' 1 '' test -e both.fip.new
ln -s both.fip link.fip
row 'a package in the place of its capsule, by a link' 0 'packed entries=1 size=101' fip package both.fip link.fip
same 'its bytes' a.fip both.fip
row 'the link stays' 0 '' test -L link.fip
ln both.fip name.fip
row 'a capsule in the place of its package, by a second name' 0 'capsule items=1 size=89' fip capsule both.fip name.fip
same 'the bytes by the first name' a.cap both.fip
: >taken.fip.new
row 'a file where another stands in the place of the new one' 0 'packed entries=1 size=101' fip package a.cap taken.fip
same 'its bytes' a.fip taken.fip
row 'the other one stays' 0 0 stat -c %s taken.fip.new
cp a.cap many.fip
: >many.fip.new
for number in $(seq 998); do : >"many.fip.new$number"; done
row 'the last name that a new file may have' 0 'packed entries=1 size=101' fip package a.cap many.fip
same 'its bytes' a.fip many.fip
: >many.fip.new999
row 'no name is left for a new file' 2 file-fault fip capsule a.fip many.fip
same 'the old file is there' a.fip many.fip
rm -f many.fip.new*
row 'a file in a folder that is not there' 2 file-fault fip create none/z.fip

# onto FILE COMMAND..: the standard output goes to this file, which is printed then.
onto() {
    onto=$1
    shift
    status=0
    "$@" >"$onto" || status=$?
    cat "$onto"
    return "$status"
}
row 'a package over the file of the standard output' 2 file-fault onto printed.txt fip create /dev/stdout tb-fw=h.bin
row 'by its own name' 2 file-fault onto printed.txt fip create printed.txt tb-fw=h.bin
row 'no new one is left' 1 '' test -e printed.txt.new
row 'a manifest over that file' 2 file-fault onto printed.txt fip manifest printed.txt 1 tb-fw,7,h.bin
payload=x$tb_fw.bin
row 'a payload over that file' 2 file-fault onto "$payload" fip unpack a.fip x
row 'a package beside that file' 0 'packed entries=1 size=101' onto printed.txt fip create beside.fip tb-fw=h.bin
same 'its bytes' a.fip beside.fip
# A list is added to a package, which is read meanwhile.
listed_behind() {
    fip info behind.fip >>behind.fip || return
    tail -c +102 behind.fip
}
cp a.fip behind.fip
row 'a list behind the package that it lists' 0 "$listed" listed_behind
printf old >"$payload"
chmod 640 "$payload"
row 'a payload in the place of an old file' 0 "$tb_fw size=5 file=$payload" fip unpack a.fip x
same 'its bytes' h.bin "$payload"
row 'it has the mode of the old file' 0 640 stat -c %a "$payload"
printf old >"$payload"
cp "$payload" old.bin
fip create zeros.fip tb-fw=long.zeros >/dev/null
row 'a payload that cannot be written' 2 file-fault limited fip unpack zeros.fip x
same 'the old file is there' old.bin "$payload"
row 'a capsule in a folder that is not there' 2 file-fault fip capsule a.fip none/z.cap

# A file of 64 MiB without data.
dd of=big.bin bs=1 seek=67108864 count=0 2>/dev/null
row 'a package of one payload of more than 64 MiB' 6 'pack too-large' fip create z.fip tb-fw=big.bin
row 'a manifest of an image of 64 MiB' 6 'manifest too-large' fip manifest z.bin 1 tb-fw,7,big.bin
row 'words that ask for nothing' 1 "$fip_usage" fip help
row 'no file is written by what is refused' 0 '' find . -name 'z.*'

# ---- A list

# A list of 8 GiB without data, and no memory for it.
dd of=sparse.list bs=1 seek=8589934592 count=0 2>/dev/null
within_64_mib() (
    ulimit -v 65536
    "$@"
)
cp formatted.img flash.img
row 'a list of 8 GiB whose first line is none' 13 'bad-list 1' within_64_mib fwu flash.img --allow sparse.list boot
rm sparse.list

# ---- The file of a flash

row 'a flash that is not there' 5 'flash cannot be used' fwu none.img boot
head -c 32767 blank.img >odd.img
row 'a file that is no whole number of blocks' 5 'flash cannot be used' fwu odd.img boot
head -c 28672 blank.img >seven.img
row 'a file of seven blocks' 5 'flash cannot be used' fwu seven.img boot

# held COMMAND..: the lock of the flash's file is another's.
held() {
    python3 -c 'import fcntl, subprocess, sys
file = open("flash.img", "r+b")
fcntl.flock(file, fcntl.LOCK_EX)
sys.exit(subprocess.run(sys.argv[1:]).returncode)' "$@"
}
cp formatted.img flash.img
row 'a flash that another run uses' 5 'flash cannot be used' held "$bin/fwu" flash.img show
cp formatted.img other.img
row 'another flash meanwhile' 0 "$first" held "$bin/fwu" other.img boot
same 'the flash is as it was' formatted.img flash.img

# ---- Power is lost at each erase and program

# The lines that stage the package of version 2.
stage() {
    echo begin
    for image in 'manifest m2.bin' 'tb-fw abc.bin' 'nt-fw h.bin'; do
        echo "open ${image% *} w"
        echo "write 1 $(od -An -v -tx1 "${image#* }" | tr -d ' \n')"
        echo 'commit 1 trial'
    done
}

# cut_off N: power is lost at the N-th erase or program of a staged update and two boots, after several numbers of bytes: the last
# two lines of each. The images are erased and programmed in operations 1 to 6, the replicas in 7 to 10, and the boots mark their
# trials in 11 and 12.
cut_off() {
    for landed in 0 8 100 4096; do
        cp marked.img flash.img
        {
            echo "cut $1 $landed"
            echo boot
            stage
            echo end
            echo boot
            echo boot
        } | fwu flash.img run >all || return $?
        tail -n 2 all
    done
}
second='boot bank=1 version=2 trials=1 counter=1'
old="$first
$first"
tried='boot bank=1 version=2 trials=2 counter=1'
new="$second
$tried"

# operations FROM TO AFTER_0 AFTER_8 AFTER_100 AFTER_4096: the last two lines after a loss at each of these operations.
operations() {
    operation=$1
    while [ "$operation" -le "$2" ]; do
        row "power is lost at operation $operation of a staged update, after 0, 8, 100 and 4096 bytes" 0 "$3
$4
$5
$6" cut_off "$operation"
        operation=$((operation + 1))
    done
}
operations 1 7 "$old" "$old" "$old" "$old"
operations 8 8 "$old" "$old" "$old" "$new"
operations 9 10 "$new" "$new" "$new" "$new"
torn="boot lost
$tried"
operations 11 11 "boot lost
$second" "$torn" "$torn" "$torn"
next="$second
boot lost"
operations 12 12 "$next" "$next" "$next" "$next"
operations 13 13 "$new" "$new" "$new" "$new"

# Power is lost at each erase or program of a partial update, after so many bytes: the next boot starts the one package or the
# other.
survives() {
    for landed in 0 8 100 4096; do
        for n in 1 2 3 4 5 6 7 8 9 10; do
            cp formatted.img flash.img
            printf 'boot\ncut %s %s\nsend m2.fip now partial\nboot\n' $n $landed | fwu flash.img run | tail -1
        done
    done | sort | uniq -c | sed 's/^ *//'
}
row 'each loss of a partial update' 0 '31 boot bank=0 version=1 trials=0 counter=1
9 boot bank=1 version=2 trials=0 counter=2' survives

if [ "$failed" -gt 0 ]; then
    echo "some rows don't hold"
    exit 1
fi
echo "these $rows rows hold too"
