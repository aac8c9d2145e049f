#!/bin/sh
# Proves the crates of both programs on all processors, builds the programs, and puts them into bin/ as fwu and fip.
# It prints a line for each crate as soon as that is done. README tells how long it takes.
# It calls the toolchain's prover itself, as the gate does: each crate is proved from nothing over the statements of the libraries
# below it. What the gate asks besides (tests, must-fail edits, words that no source may have) it doesn't ask. What was proved stays
# in a folder that bin/proved_at names, each with a sum of all that it stands on, and is proved again only where that changed. That
# folder is in the user's cache, since the gate refuses texts of Rattle in this one that no check reads.
set -eu
cd "$(dirname "$0")/.."
command -v rt >/dev/null || { echo "rt isn't installed: the toolchain that README names" >&2; exit 1; }
toolchain=$(dirname "$(dirname "$(readlink -f "$(command -v rt)")")")
version=$(rt version)
cache=${XDG_CACHE_HOME:-${HOME:-/tmp}/.cache}
proved=$cache/fwu-and-fip/$(basename "$PWD")-$(pwd | cksum | cut -d' ' -f1)
mkdir -p bin "$proved"
echo "$proved" >bin/proved_at
logs=$(mktemp -d)
trap 'rm -rf "$logs"' EXIT
workers=$(nproc)
began=$(date +%s)

# The libraries that a crate names.
named() {
    sed -n "s/^$1: //p" crates.txt
}

# How many lines of code, definitions and proofs each crate has: what its proof takes goes with that.
lines() {
    for folder in crates/*; do
        echo "$(basename "$folder") $(find "$folder" -name out -prune -o \( -name '*.rt' -o -name '*.antt' \) -exec cat {} + | wc -l)"
    done
}

# The programs and the crates that they stand on, each with those of this repository that it names, as "crate: names": first the
# one with the longest way up to a program, by the lines of the crates on it.
order() {
    lines | awk '
        NR == FNR { own[$1] = $2; next }
        /^[a-z]/ { crate = $1; sub(/:.*/, "", crate); sub(/^[^:]*:/, ""); names[crate] = $0 }
        function visit(crate, above,    list, count, i) {
            if (crate in tall && tall[crate] >= above + own[crate]) return
            tall[crate] = above + own[crate]
            count = split(names[crate], list, " ")
            for (i = 1; i <= count; i++) if (list[i] in names) visit(list[i], tall[crate])
        }
        END {
            visit("fwu_prog", 0)
            visit("fip_prog", 0)
            for (crate in tall) {
                count = split(names[crate], list, " ")
                below = ""
                for (i = 1; i <= count; i++) if (list[i] in names) below = below " " list[i]
                print tall[crate] "\t" crate ":" below
            }
        }' - crates.txt | sort -rn | cut -f2
}

# A sum of all that a crate's proof stands on: the toolchain, its files, and the sums of the crates that it names.
sum_of() {
    {
        echo "$version"
        find "crates/$1/src" "crates/$1/specs" "crates/$1/proofs" -type f 2>/dev/null | LC_ALL=C sort | xargs sha256sum
        for name in $(named "$1"); do
            if [ -d "crates/$name" ]; then cat "$proved/$name.sum"; fi
        done
    } | sha256sum
}

# The words by which the prover finds a crate, and the libraries that it names and stands on.
words_of() {
    root=src/lib.rt
    case $1 in *_prog) root=src/main.rt ;; esac
    echo "--crate-name $1 $root --extern std=$toolchain/rlibs/std.rlib"
    for name in $(named "$1"); do
        folder=$toolchain/rlibs
        if [ -d "crates/$name" ]; then folder=$proved; fi
        echo "--extern $name=$folder/$name.rlib"
    done
    echo "-L dependency=$toolchain/rlibs -L dependency=$proved"
    echo "--antt-project $toolchain/rattle/logic/antt-project.json --logic-built $toolchain/logic_built --links $1="
}

# Proves a library with so many jobs, and makes what others read of it.
make_library() {
    words=$(words_of "$1")
    (cd "crates/$1" && "$toolchain/bin/rattle" build $words --jobs "$2" --statements -o "$proved/$1.rlib")
}

# Proves a program, compiles it and what it stands on, and links it.
make_program() {
    words=$(words_of "$1")
    object=$proved/$1.o
    compiler="--toolchain $toolchain/toolchain"
    (cd "crates/$1" && "$toolchain/bin/rattle" build $words --jobs "$2" $compiler --backend llvm -o "$object") &&
        "$toolchain/bin/rattle-link" --target x86_64-unknown-linux-gnu $compiler -o "$proved/$1" "$object" \
            "$toolchain/c/libos_c.a" "$toolchain/c/liblibc_c.a"
}

# Proves and makes a crate, if that isn't done yet for what it stands on now.
prove() {
    sum=$(sum_of "$1")
    if [ "$sum" = "$(cat "$proved/$1.sum" 2>/dev/null)" ]; then return 0; fi
    rm -f "$proved/$1.sum"
    case $1 in
        *_prog) make_program "$1" "$2" ;;
        *) make_library "$1" "$2" ;;
    esac || return 1
    echo "$sum" >"$proved/$1.sum"
}

# Proves a crate with so many jobs, with a mark for how it ended.
attempt() {
    if prove "$1" "$2" >"$logs/$1.log" 2>&1; then
        mv "$logs/$1.running" "$logs/$1.done"
    else
        mv "$logs/$1.running" "$logs/$1.failed"
    fi
}

# Whether all crates of a list are done.
are_done() {
    for name in $1; do
        [ -e "$logs/$name.done" ] || return 1
    done
}

# The crates of the order whose turn has come.
ready() {
    while IFS=: read -r crate names; do
        [ -e "$logs/$crate.begun" ] && continue
        if are_done "$names"; then echo "$crate"; fi
    done <"$logs/order"
}

# How many jobs are under way.
jobs_now() {
    cat "$logs"/*.running 2>/dev/null | awk '{ all += $1 } END { print all + 0 }'
}

# Starts the first crate whose turn has come, with all processors that the others whose turn has come leave.
# False where there is none, or no processor is free.
start_one() {
    crates=$(ready)
    free=$((workers - $(jobs_now)))
    [ -n "$crates" ] && [ "$free" -gt 0 ] || return 1
    first=$(echo "$crates" | head -1)
    jobs=$((free - $(echo "$crates" | wc -l) + 1))
    [ "$jobs" -ge 1 ] || jobs=1
    : >"$logs/$first.begun"
    echo "$jobs" >"$logs/$first.running"
    attempt "$first" "$jobs" &
}

count() {
    find "$logs" -name "*.$1" | wc -l
}

# Prints each crate that was done since the last time.
tell() {
    for mark in "$logs"/*.done; do
        [ -e "$mark" ] || continue
        crate=$(basename "$mark" .done)
        [ -e "$logs/$crate.told" ] && continue
        : >"$logs/$crate.told"
        spent=$(($(date +%s) - began))
        printf '%2d of %d: %s (%d min %02d s)\n' "$(count told)" "$all" "$crate" $((spent / 60)) $((spent % 60))
    done
}

# Ends with the log of a crate that failed, if there is one.
end_at_failure() {
    for mark in "$logs"/*.failed; do
        [ -e "$mark" ] || continue
        tail -40 "$logs/$(basename "$mark" .failed).log"
        wait
        exit 1
    done
}

order >"$logs/order"
all=$(wc -l <"$logs/order")
echo "proving $all crates on $workers processors, in $proved"
while [ "$(count told)" -lt "$all" ]; do
    while start_one; do :; done
    sleep 1
    tell
    end_at_failure
done
cp "$proved/fwu_prog" bin/fwu
cp "$proved/fip_prog" bin/fip
{
    echo "commit $(git describe --always --dirty 2>/dev/null || echo unknown)"
    echo "$version"
    (cd bin && sha256sum fwu fip)
} >bin/VERSION
echo "built bin/fwu and bin/fip"
