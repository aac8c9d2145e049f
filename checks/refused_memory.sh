#!/bin/sh
# Refuses each growth of memory of the built programs in turn, one in each run, over files of the system: fip makes a package of two images
# and lists it, and fwu boots a flash, sends it a package on trial and boots again, and serves seven requests. A library that is loaded
# before the C library counts the calls of malloc, calloc and realloc, and refuses the one of a number, for the numbers from 1 on until a run meets none that is refused.
# A refused run ends with status 9, or, where the room is then taken in another way, as the run without a refusal does: with its status, its
# lines and its files. Afterwards fwu's flash boots a bank, and no file but those that the words name has changed. The script ends with 1
# where one of these doesn't hold, and prints how many numbers it went over. It wants bin/fip and bin/fwu (demo/build.sh), a C compiler,
# and glibc. With the word fip or fwu it goes over that program alone.
set -eu
cd "$(dirname "$0")/.."
top=$(pwd)
bin=$top/bin
chosen=${1:-fip fwu}
for program in fip fwu; do
    [ -s "$bin/$program" ] && [ -x "$bin/$program" ] || case $chosen in
        *$program*) echo "bin/$program isn't built: demo/build.sh builds it" >&2; exit 1 ;;
    esac
done
work=$(mktemp -d)
trap 'rm -rf "$work"' EXIT

cat >"$work/refuse.c" <<'C'
#include <errno.h>
#include <stddef.h>
#include <stdio.h>
#include <stdlib.h>

extern void *__libc_malloc(size_t);
extern void *__libc_calloc(size_t, size_t);
extern void *__libc_realloc(void *, size_t);

static long made, refused = -1;

/* Counts a call. Whether it is the one that is refused. */
static int is_refused(void) {
    if (refused < 0) {
        const char *number = getenv("REFUSED");
        refused = number ? atol(number) : 0;
    }
    made++;
    if (made == refused) errno = ENOMEM;
    return made == refused;
}

void *malloc(size_t size) { return is_refused() ? NULL : __libc_malloc(size); }
void *calloc(size_t count, size_t size) { return is_refused() ? NULL : __libc_calloc(count, size); }
void *realloc(void *old, size_t size) { return is_refused() ? NULL : __libc_realloc(old, size); }

/* Says in a file whether there were so many calls. */
__attribute__((destructor)) static void tell(void) {
    int was_met = made >= refused;
    const char *name = getenv("REFUSED_MET");
    FILE *file = name && was_met ? fopen(name, "w") : NULL;
    if (file) fclose(file);
}
C
${CC:-cc} -shared -fPIC -O1 -o "$work/refuse.so" "$work/refuse.c"

# Runs the program in a fresh copy of its files, with the call of this number refused, or none where that is 0.
run() {
    number=$1
    shift
    rm -rf "$work/copy" "$work/met"
    cp -r "$work/start" "$work/copy"
    status=0
    (cd "$work/copy" && REFUSED=$number REFUSED_MET=$work/met LD_PRELOAD=$work/refuse.so "$@") \
        <"$work/script" >"$work/out" 2>"$work/errors" || status=$?
}

# The files, but for the named one, by their names and sums.
others() {
    (cd "$1" && find . -type f ! -name "$named" -exec cksum {} + | sort)
}

fail() {
    echo "number $number of $*, status $status:" >&2
    cat "$work/out" "$work/errors" >&2
    exit 1
}

# Whether the run left all as the run without a refusal did.
is_whole() {
    [ "$status" = "$whole" ] && cmp -s "$work/out" "$work/whole.out" && diff -rq "$work/copy" "$work/whole" >/dev/null
}

# Goes over the numbers for these words, of which one names the only file that may change. What has to hold after each run besides is $after.
sweep() {
    run 0 "$@"
    whole=$status
    cp "$work/out" "$work/whole.out"
    rm -rf "$work/whole"
    cp -r "$work/copy" "$work/whole"
    [ "$whole" = 0 ] || fail "$@"
    number=0
    nine=0
    while :; do
        run $((number + 1)) "$@"
        [ -e "$work/met" ] || break
        if [ "$status" = 9 ]; then nine=$((nine + 1)); else is_whole || fail "$@"; fi
        [ "$(others "$work/copy")" = "$(others "$work/start")" ] || fail "$@"
        $after || fail "$@"
    done
    is_whole || fail "$@"
    echo "${1##*/} $2: $((number - 1)) numbers, $nine with status 9, $((number - 1 - nine)) as without a refusal"
}

sweep_fip() {
    after=true
    rm -rf "$work/start"
    mkdir "$work/start"
    printf hello >"$work/start/hello.bin"
    printf xyz >"$work/start/xyz.bin"
    : >"$work/script"
    named=a.fip
    sweep "$bin/fip" create a.fip tb-fw=hello.bin nt-fw=xyz.bin
    cp "$work/whole/a.fip" "$work/start"
    named=none
    sweep "$bin/fip" info a.fip
}

# A boot of the flash that is left starts a bank.
boots() {
    "$bin/fwu" "$work/copy/flash.img" boot >"$work/booted" && grep -q '^boot bank=' "$work/booted"
}

# A package of this version in the folder, by its name.
package() {
    "$bin/fip" manifest m.bin "$1" tb-fw,7,abc.bin nt-fw,9,hello.bin
    "$bin/fip" create "p$1.fip" manifest=m.bin tb-fw=abc.bin nt-fw=hello.bin
}

sweep_fwu() {
    after=boots
    rm -rf "$work/start"
    mkdir "$work/start"
    (
        cd "$work/start"
        printf abc >abc.bin
        printf hello >hello.bin
        package 1
        package 2
        head -c $((22 * 4096)) /dev/zero | tr '\0' '\377' >flash.img
        "$bin/fwu" flash.img format manifest:1,tb-fw:2,nt-fw:4 p1.fip
    ) >"$work/made"
    printf 'boot\nsend p2.fip trial\nboot\nshow\n' >"$work/script"
    named=flash.img
    sweep "$bin/fwu" flash.img run
    python3 -B - "$top/demo" "$work/script" <<'PY'
import sys

sys.path.insert(0, sys.argv[1])
from serve_client import BEGIN, CANCEL, DISCOVER, OPEN, READ, WRITE, frame, numbered, type_of, words

calls = [(DISCOVER, b""), (OPEN, type_of("tb-fw") + words(0)), (READ, words(1, 4096)), (BEGIN, words(0, 0))]
calls += [(OPEN, type_of("tb-fw") + words(1)), (WRITE, words(1) + b"abcd"), (CANCEL, b"")]
with open(sys.argv[2], "wb") as file:
    for number, (function, arguments) in enumerate(calls):
        file.write(frame(numbered(number + 1, words(function) + arguments)))
PY
    sweep "$bin/fwu" flash.img serve
}

case $chosen in *fip*) sweep_fip ;; esac
case $chosen in *fwu*) sweep_fwu ;; esac
