#!/bin/sh
# Builds libfwu.a for x86-64 and aarch64 into bin/c, the host program bin/c/try, and the bare program bin/c/bare.elf.
# The libraries below are those that demo/build.sh proved, which it runs first; fwu_c is proved here, and what stands below it alone:
# step_flash, package_files, and runs_kit for its tests.
# The compiler is the toolchain's clang for both processors; the C programs want cc and aarch64-linux-gnu-gcc.
set -eu
cd "$(dirname "$0")/../.."
demo/build.sh
toolchain=$(dirname "$(dirname "$(readlink -f "$(command -v rt)")")")
proved=$(cat bin/proved_at)
out=$PWD/bin/c
mkdir -p "$out/x86_64" "$out/aarch64"

# The words by which the prover finds a crate, and the libraries that it names and stands on.
words_of() {
    echo "--crate-name $1 src/lib.rt --extern std=$toolchain/rlibs/std.rlib"
    for name in $(sed -n "s/^$1\( staticlib\)*: //p" crates.txt); do
        if [ -d "crates/$name" ]; then folder=$proved; else folder=$toolchain/rlibs; fi
        echo "--extern $name=$folder/$name.rlib"
    done
    echo "-L dependency=$toolchain/rlibs -L dependency=$proved"
    echo "--antt-project $toolchain/rattle/logic/antt-project.json --logic-built $toolchain/logic_built --links $1="
}

# Proves a crate, and makes what is named behind it.
make() {
    crate=$1
    shift
    words=$(words_of "$crate")
    echo "$crate $*" | sed "s|$out|bin/c|"
    (cd "crates/$crate" && "$toolchain/bin/rattle" build $words --jobs "$(nproc)" "$@" >"$out/$crate.log" 2>&1) || {
        tail -40 "$out/$crate.log"
        exit 1
    }
}

make step_flash --statements -o "$proved/step_flash.rlib"
make package_files --statements -o "$proved/package_files.rlib"
make runs_kit --statements -o "$proved/runs_kit.rlib"
for processor in x86_64 aarch64; do
    make fwu_c --crate-type staticlib --target $processor-unknown-linux-gnu --toolchain "$toolchain/toolchain" --backend llvm \
        -o "$out/$processor/libfwu.a"
done

warnings="-std=c11 -Wall -Wextra -Wconversion -Werror"
cc -O2 $warnings -D_GNU_SOURCE -Iinclude -o "$out/try" demo/c/try.c demo/c/work.c "$out/x86_64/libfwu.a"
aarch64-linux-gnu-gcc -O2 $warnings -ffreestanding -nostdlib -static -fno-builtin -fno-stack-protector -fno-pic -no-pie -Iinclude \
    -Wl,--build-id=none -Wl,--no-warn-rwx-segments \
    -T demo/c/bare/link.ld -o "$out/bare.elf" demo/c/bare/start.S demo/c/bare/bare.c demo/c/work.c "$out/aarch64/libfwu.a"
