#!/bin/sh
# Builds libcovremuj.a for C: the proved archive, the three functions by which it takes memory, and workers.c, in one file.
#
# usage: build.sh FOLDER        writes FOLDER/libcovremuj.a
#
# The proved archive is built over the libraries that the last `rt ci` has left (over_gate.py). Where it has left none, or the text has changed
# since, `rt lib` in crates/covremuj proves what is not proved yet of that crate and of those below, so run .ci/run first. Where the environment
# names another archive by COVREMUJ_ARCHIVE, that is taken. CC, AR and CFLAGS as usual.
set -eu
folder=$(mkdir -p "$1" && cd "$1" && pwd -P)
top=$(cd "$(dirname "$0")/.." && pwd -P)
crate=$top/crates/covremuj

say() {
    echo "build.sh: $1" >&2
}

# The kit's archive of what Rattle's allocator calls.
memory() {
    rt=$(command -v rt) || return 1
    found=$(dirname "$(dirname "$(readlink -f "$rt")")")/c/liblibc_c.a
    [ -f "$found" ] && echo "$found"
}

# Whether an archive has the functions by which memory is taken.
has_memory() {
    ${NM:-nm} "$1" 2>/dev/null | grep -q ' T rattle_alloc$'
}

archive=${COVREMUJ_ARCHIVE-}
if [ -z "$archive" ]; then
    command -v rt >/dev/null || { say "there is no rt on the path, which builds the proved archive"; exit 1; }
    status=0
    "$top/library/over_gate.py" >"$folder/lib.said" 2>&1 || status=$?
    if [ $status = 3 ]; then
        status=0
        (cd "$crate" && rt lib) >"$folder/lib.said" 2>&1 || status=$?
    fi
    [ $status = 0 ] || { cat "$folder/lib.said" >&2; say "the archive of crates/covremuj is not built"; exit 1; }
    archive=$crate/out/libcovremuj.a
fi
[ -f "$archive" ] || { say "there is no archive $archive"; exit 1; }

# shellcheck disable=SC2086
${CC:-cc} -std=c11 -O2 ${CFLAGS-} -I"$top/include" -c "$top/library/workers.c" -o "$folder/workers.o"
parts=$archive
if ! has_memory "$archive"; then
    parts="$archive $(memory)" || { say "the kit's liblibc_c.a is not beside rt"; exit 1; }
fi
rm -f "$folder/new.a"
{
    echo "create $folder/new.a"
    for part in $parts; do echo "addlib $part"; done
    echo "addmod $folder/workers.o"
    echo save
    echo end
} | ${AR:-ar} -M
mv -f "$folder/new.a" "$folder/libcovremuj.a"
