#!/bin/sh
# Builds the Lisp and its tests over the library, and runs them.
#
# usage: test.sh FOLDER        in the environment: CC, CFLAGS with -I of the header, LDFLAGS with the archive
#
# Writes nothing but below the folder; prints a line; ends with 0, or with 1.
set -u
build=${1:?a folder is wanted}
here=$(cd "$(dirname "$0")" && pwd -P)
CC=${CC:-cc}
LISP="values stack text symbols reader compiler evaluator primitives printer session team memory_covremuj"

compile() {
    # shellcheck disable=SC2086
    $CC -std=c11 -Wall -Wextra -Wpedantic -Werror -DLISP_COUNTING_PAUSES ${CFLAGS-} -I"$here" -c "$here/$1.c" -o "$build/lisp_$1.o"
}

# The Lisp with one more file, as a program of that name.
link() {
    # shellcheck disable=SC2046,SC2086
    $CC ${CFLAGS-} "$build/lisp_$2.o" $(for part in $LISP; do echo "$build/lisp_$part.o"; done) ${LDFLAGS-} -o "$build/$1"
}

# The driver on a program of the standard input, and on one that ends by an error.
try_driver() {
    said=$(echo '(write (+ 20 22))' | "$build/lisp" --threads 2) && [ "$said" = '1: 422: 42' ] || { echo "lisp: the driver says $said"; return 1; }
    said=$(echo '(car 1)' | "$build/lisp" --regions 8 --words 512)
    [ $? = 1 ] || { echo "lisp: an error is not told by the status"; return 1; }
    "$build/lisp" --threads 9 </dev/null 2>/dev/null
    [ $? = 2 ] || { echo "lisp: nine threads are not refused"; return 1; }
}

for part in $LISP main test_lisp; do
    compile "$part" || exit 1
done
link lisp main && link test_lisp test_lisp && try_driver && "$build/test_lisp" "$here/programs"
