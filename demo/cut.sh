#!/bin/sh
# Builds fip and fwu (demo/build.sh, which shows what it proves as it goes), makes packages, formats a flash file, and runs updates
# on it. Power is cut within a boot, within a sending, within the copy of an image that isn't sent, and within the end of a staging. An
# update is accepted, and an older one refused. What it prints behind the build is compared with demo/cut.expected. That text comes from
# no run of the programs, but from what docs says of formats and of the machine, and its last line from checks/model/soak_model.py.
# Where they differ the script shows it, and ends with 1.
set -eu
here=$(cd "$(dirname "$0")/.." && pwd)
"$here/demo/build.sh"
fip=$here/bin/fip
fwu=$here/bin/fwu
work=$(mktemp -d)
trap 'rm -rf "$work"' EXIT
cd "$work"

say() {
    echo "\$ $*"
}

make_flash() {
    printf abc >abc.bin
    printf hello >hello.bin
    say fip manifest m.bin 5 tb-fw,7,abc.bin nt-fw,9,hello.bin
    "$fip" manifest m.bin 5 tb-fw,7,abc.bin nt-fw,9,hello.bin
    say fip create p5.fip manifest=m.bin tb-fw=abc.bin nt-fw=hello.bin
    "$fip" create p5.fip manifest=m.bin tb-fw=abc.bin nt-fw=hello.bin

    # A blank flash of 22 blocks.
    head -c $((22 * 4096)) /dev/zero | tr '\0' '\377' >flash.img
    say fwu flash.img format manifest:1,tb-fw:2,nt-fw:4 p5.fip
    "$fwu" flash.img format manifest:1,tb-fw:2,nt-fw:4 p5.fip
}

# The first boot raises the counter against rollback to 5, by an erase and a program of a record. Power is cut after 8 bytes of that
# program, and the next boot does it again.
boot_first() {
    say "fwu flash.img run, with the lines: cut 2 8, boot, show, boot, show"
    printf 'cut 2 8\nboot\nshow\nboot\nshow\n' | "$fwu" flash.img run
    say fwu flash.img show
    "$fwu" flash.img show
}

# A newer package, sent on trial. Power is lost as the metadata is written that would make it the active one, in the middle of the
# first replica: the old bank boots. Sent again it is installed, and starts on trial.
update() {
    printf abd >abd.bin
    say fip manifest m.bin 6 tb-fw,8,abd.bin nt-fw,9,hello.bin
    "$fip" manifest m.bin 6 tb-fw,8,abd.bin nt-fw,9,hello.bin
    say fip create p6.fip manifest=m.bin tb-fw=abd.bin nt-fw=hello.bin
    "$fip" create p6.fip manifest=m.bin tb-fw=abd.bin nt-fw=hello.bin
    cat >update.script <<'END'
boot
cut 8 100
send p6.fip trial
boot
send p6.fip trial
boot
show
END
    say "fwu flash.img run <update.script"
    cat update.script
    "$fwu" flash.img run <update.script
}

# Image by image it is accepted; the next boot raises the counter, and the older package is refused from then on.
accept() {
    cat >accept.script <<'END'
boot
accept manifest
accept tb-fw
accept nt-fw
boot
show
send p5.fip now
END
    say "fwu flash.img run <accept.script"
    cat accept.script
    "$fwu" flash.img run <accept.script
}

# An update that brings the manifest and one image, on a copy of the flash: the other image is copied from the active bank. Power is
# lost within that copy, and the old bank boots. Sent again the update is installed.
send_some() {
    cp flash.img copy.img
    printf abcd >new.bin
    say fip manifest m.bin 7 tb-fw,9,new.bin nt-fw,9,hello.bin
    "$fip" manifest m.bin 7 tb-fw,9,new.bin nt-fw,9,hello.bin
    say fip create p7.fip manifest=m.bin tb-fw=new.bin
    "$fip" create p7.fip manifest=m.bin tb-fw=new.bin
    cat >partial.script <<'END'
boot
cut 2 8
send p7.fip now partial
boot
send p7.fip now partial
boot
show
END
    say "fwu copy.img run <partial.script"
    cat partial.script
    "$fwu" copy.img run <partial.script
}

hex() {
    od -An -v -tx1 "$1" | tr -d ' \n'
}

# The same by the agent's own calls: a package is staged image by image, and power is lost within `end`.
stage() {
    say fip manifest m.bin 7 tb-fw,9,abc.bin nt-fw,9,hello.bin
    "$fip" manifest m.bin 7 tb-fw,9,abc.bin nt-fw,9,hello.bin
    {
        echo boot
        echo begin
        for image in manifest:m.bin tb-fw:abc.bin nt-fw:hello.bin; do
            echo "open ${image%%:*} w"
            echo "write 1 $(hex "${image#*:}")"
            echo "commit 1 now"
        done
        echo "cut 3 8"
        echo end
        echo boot
        echo show
    } >stage.script
    say "fwu flash.img run <stage.script"
    cat stage.script
    "$fwu" flash.img run <stage.script
}

# One byte of the image abd changed, in the active bank: the other bank was made invalid by the last begin, so no bank is started.
boot_changed() {
    printf x | dd of=flash.img bs=1 seek=$((16 * 4096)) conv=notrunc 2>/dev/null
    say "fwu flash.img boot, with one byte of the image abd changed"
    "$fwu" flash.img boot || echo "status $?"
}

# A hundred rounds of updates and power cuts that are drawn from a number, on a flash in memory.
soak() {
    say fwu - soak 1 100
    "$fwu" - soak 1 100
}

# A program that ends with another status ends the lines, which then differ.
{
    make_flash
    boot_first
    update
    accept
    send_some
    stage
    boot_changed
    soak
} | tee printed

# The expected text is folded, for its longest line is that of a manifest in digits.
if fold -w 128 printed | diff "$here/demo/cut.expected" - >differences; then
    echo "as expected"
else
    echo "not as expected; behind < is what demo/cut.expected has, and behind > what was printed:"
    cat differences
    exit 1
fi
