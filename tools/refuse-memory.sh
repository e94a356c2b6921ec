#!/bin/sh
# Makes each allocation of a run fail in turn, in the player that `make play` built: the status is 1 with a front of the
# report, or 0 with all of it. usage: refuse-memory.sh SCENARIO REPORT
set -eu
player=crates/fission_play/out/fission_play
work=$(mktemp -d)
trap 'rm -rf "$work"' EXIT

# malloc and realloc, of which the call with the number in REFUSE finds no memory.
cat > "$work/refuse.c" <<'C'
#define _GNU_SOURCE
#include <dlfcn.h>
#include <stdio.h>
#include <stdlib.h>
static long calls;
static int refused(void) {
    const char *number = getenv("REFUSE");
    return ++calls == (number ? atol(number) : 0);
}
__attribute__((destructor)) static void tell(void) {
    fprintf(stderr, "%ld\n", calls);
}
void *malloc(size_t size) {
    static void *(*next)(size_t);
    if (!next) next = (void *(*)(size_t))dlsym(RTLD_NEXT, "malloc");
    return refused() ? NULL : next(size);
}
void *realloc(void *old, size_t size) {
    static void *(*next)(void *, size_t);
    if (!next) next = (void *(*)(void *, size_t))dlsym(RTLD_NEXT, "realloc");
    return refused() ? NULL : next(old, size);
}
C
cc -shared -fPIC -O1 -o "$work/refuse.so" "$work/refuse.c" -ldl

play() { LD_PRELOAD="$work/refuse.so" "$player" play < "$1" > "$work/written" 2> "$work/calls"; }

REFUSE=0 play "$1"
calls=$(cat "$work/calls")
refused=0
for number in $(seq "$calls"); do
    status=0
    REFUSE=$number play "$1" || status=$?
    size=$(wc -c < "$work/written")
    head -c "$size" "$2" | cmp - "$work/written" || { echo "allocation $number: no front of the report"; exit 1; }
    case $status in
    0) cmp "$work/written" "$2" ;;
    1) refused=$((refused + 1)) ;;
    *) echo "allocation $number: status $status"; exit 1 ;;
    esac
done
echo "of $calls allocations, $refused gave status 1 and a front of the report, the others status 0 and all of it"
