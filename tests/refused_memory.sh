#!/bin/sh
# Runs the built program with one allocation refused, each in turn, once for every command and kind of index.
#   tests/refused_memory.sh PROGRAM
# A run is right where it is done as without the refusal, or ends with code 8 and its line, its files as they were or the new
# one whole, and a prefix of its lines printed. Prints a line for each command, with how many allocations were refused, and
# ends with 1 if a run fell short. It is no part of the gate: it takes two minutes, and a C compiler.
program=$(realpath "${1:?the program}") || exit 2
home=$(mktemp -d) || exit 2
trap 'rm -rf "$home"' EXIT
cd "$home" || exit 2
cc=${CC:-cc}
command -v "$cc" >/dev/null || { echo "refused_memory: skipped: no C compiler"; exit 0; }

# Allocations are counted from 1. The one with the number REFUSED_AT is refused, and a file REFUSED_MARK says so.
cat >refuse.c <<'END'
#include <errno.h>
#include <fcntl.h>
#include <stdlib.h>
#include <unistd.h>
extern void *__libc_malloc(size_t), *__libc_calloc(size_t, size_t), *__libc_realloc(void *, size_t), *__libc_memalign(size_t, size_t);
static unsigned long made, at;
static const char *mark;
__attribute__((constructor)) static void begin(void) {
    const char *number = getenv("REFUSED_AT");
    mark = getenv("REFUSED_MARK");
    at = number ? strtoul(number, 0, 10) : 0;
    __atomic_store_n(&made, 0, __ATOMIC_SEQ_CST);
}
static int refused(void) {
    if (!at || __atomic_add_fetch(&made, 1, __ATOMIC_SEQ_CST) != at) return 0;
    int file = open(mark, O_CREAT | O_WRONLY, 0600);
    if (file >= 0) close(file);
    errno = ENOMEM;
    return 1;
}
void *malloc(size_t size) { return refused() ? 0 : __libc_malloc(size); }
void *calloc(size_t count, size_t size) { return refused() ? 0 : __libc_calloc(count, size); }
void *realloc(void *old, size_t size) { return refused() ? 0 : __libc_realloc(old, size); }
void *aligned_alloc(size_t line, size_t size) { return refused() ? 0 : __libc_memalign(line, size); }
void *memalign(size_t line, size_t size) { return refused() ? 0 : __libc_memalign(line, size); }
int posix_memalign(void **into, size_t line, size_t size) {
    if (refused()) return ENOMEM;
    *into = __libc_memalign(line, size);
    return *into ? 0 : ENOMEM;
}
END
"$cc" -O1 -shared -fPIC -o refuse.so refuse.c || { echo "refused_memory: skipped: no shared library can be made"; exit 0; }

# The points 0, 10, 20 and 30, the queries 12 and 30, and an index of each kind.
mkdir at_entry
printf '\004\000\000\000\001\000\000\000\000\012\024\036' >at_entry/pts
printf '\002\000\000\000\001\000\000\000\014\036' >at_entry/ask
printf 'an older file' >at_entry/new
small='--order file --degree 2 --beam 4 --cap 2'
layers='--kind hnsw --order file --degree 1 --beam 4 --cap 2 --bits 1 --max-level 1 --seed 22'
lists='--kind nnd --degree 2 --list 2 --trees 2 --leaf 2 --rounds 2'
# shellcheck disable=SC2086
(
    cd at_entry || exit 1
    "$program" build pts vamana.ann $small && "$program" build pts hnsw.ann $layers && "$program" build pts nnd.ann $lists
) >built || { echo "refused_memory: FAILED: no index"; exit 1; }

failed=0
# Why a run fell short; nothing where it is right. What it stores is named; `live` prints lines that may differ.
shortfall() {
    for file in at_entry/*; do
        name=${file#at_entry/}
        [ "$name" = "$stored" ] || cmp -s "$file" "work/$name" || { echo "$name changed"; return; }
    done
    [ -z "$(find work -name 'annbuild-part-*')" ] || { echo "a part of a file is left"; return; }
    case $status in
        0)
            [ -z "$stored" ] || cmp -s "work/$stored" "clean/$stored" || { echo "another file stored"; return; }
            [ "$command" = live ] || cmp -s out clean.out || { echo "other lines"; return; }
            [ "$(head -n 1 out)" = "$(head -n 1 clean.out)" ] || { echo "another first line"; return; }
            [ -s err ] && echo "a line on the error stream"
            ;;
        8)
            grep -qx 'annbuild: out of memory' err && [ "$(wc -l <err)" = 1 ] || { echo "no line on the error stream"; return; }
            [ "$command" = live ] || head -c "$(wc -c <out)" clean.out | cmp -s - out || { echo "lines that are no prefix"; return; }
            [ -z "$stored" ] || cmp -s "work/$stored" "clean/$stored" && return
            cmp -s "work/$stored" "at_entry/$stored" || { echo "half a file"; return; }
            [ -s out ] && echo "a line without its file"
            ;;
        *) echo "status $status" ;;
    esac
}

# A command with each of its allocations refused, in turn: what it stores, then its words.
each() {
    stored=$1 command=$2
    shift
    rm -rf work clean; cp -r at_entry work; cp -r at_entry clean
    (cd clean && "$program" "$@" >../clean.out 2>../clean.err) || { echo "refused_memory: $* ... FAILED: status $?"; failed=1; return; }
    number=0 wanted=0 short=0 none=0
    # Threads take memory in any order, so that two runs in a row have to have had none refused.
    while [ $none -lt 2 ]; do
        number=$((number + 1))
        rm -f mark
        [ -z "$stored" ] || cp "at_entry/$stored" "work/$stored"
        # The program alone is under the library.
        (cd work && timeout 60 env REFUSED_AT=$number REFUSED_MARK="$home/mark" LD_PRELOAD="$home/refuse.so" "$program" "$@" >../out 2>../err)
        status=$?
        if [ -e mark ]; then none=0; else none=$((none + 1)); fi
        [ $status = 8 ] && wanted=$((wanted + 1))
        why=$(shortfall)
        [ -z "$why" ] || { echo "refused_memory: $*: allocation $number: $why"; short=$((short + 1)); }
    done
    tried=$((number - 2))
    [ $tried -gt 0 ] || short=$((short + 1))
    if [ $short = 0 ]; then echo "refused_memory: $* ... ok ($tried refused, $wanted ended with 8)"; else echo "refused_memory: $* ... FAILED"; failed=1; fi
}

# shellcheck disable=SC2086
{
    each new build pts new $small --pool serial
    each new build pts new $small --pool rayon --workers 2
    each new build pts new $small --pool steal --workers 2
    each new build pts new $layers
    each new build pts new $lists
    for kind in vamana hnsw nnd; do
        each '' query pts $kind.ann ask --search 4 --k 2
        each '' check pts $kind.ann
    done
    each new make new --count 3 --dim 2 --seed 1
    each new live pts new ask $small --search 4 --k 1
    each '' trial --count 5 --dim 2 --queries 3 --search 4 --k 2 --degree 2
    each '' trial --kind hnsw --count 5 --dim 2 --queries 3 --search 4 --k 2 --bits 1
    each '' trial --kind nnd --count 5 --dim 2 --queries 3 --search 4 --k 2 --list 2 --trees 2 --leaf 2
}
exit $failed
