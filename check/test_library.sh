#!/bin/sh
# Builds the library for C and runs what is written over it: the users in library/users with their tests, each with ordinary flags and under the
# compiler's checkers of addresses, of undefined behaviour and of races; the wrapper for C++; the crate for Rust; and an installation that a program of its own
# links by pkg-config.
#
# usage: test_library.sh
#
# What is not there is named and passed over: without cc nothing is built. The proved archive is built over the libraries that `rt ci` has left;
# COVREMUJ_ARCHIVE names another one. Nothing is written but below a throwaway folder, and what rt writes in out/. The checkers see the C of the users and
# of the header, and what is allocated and freed; the archive is not compiled for them, so they see none of its accesses (docs/LIBRARY.md).
set -u
top=$(cd "$(dirname "$0")/.." && pwd -P)
users=$top/library/users
room=$(mktemp -d)
trap 'rm -rf "$room"' EXIT
trap 'exit 129' HUP
trap 'exit 130' INT
trap 'exit 143' TERM
failed=0
CC=${CC:-cc}
CXX=${CXX:-c++}
STRICT='-Wall -Wextra -Wpedantic -Werror'

say() {
    echo "test_library: $1"
}

fail() {
    say "FAILED: $1"
    failed=1
}

has() {
    command -v "$1" >/dev/null
}

# With a limit of time, where there is one to be had.
limited() {
    if has timeout; then timeout 100 "$@"; else "$@"; fi
}

# Runs a test, and writes what it says, or what went wrong.
run() {
    what=$1
    shift
    if limited "$@" >"$room/said" 2>&1; then
        sed "s/^/  $what: /" "$room/said"
    else
        tail -n 40 "$room/said"
        fail "$what"
    fi
}

# Compiles the C files of a user with these flags into $2.
compile() {
    flags=$1 out=$2
    shift 2
    # shellcheck disable=SC2086
    $CC -std=c11 $STRICT $flags -I"$top/include" -include "$users/common/waits.h" "$@" "$room/$name/workers.o" "$room/libcovremuj.a" -pthread -o "$out" >"$room/said" 2>&1 && return 0
    cat "$room/said"
    return 1
}

# Whether the compiler makes programs with these flags that run here.
works() {
    echo 'int main(void) { return 0; }' >"$room/nothing.c"
    # shellcheck disable=SC2086
    $CC $1 "$room/nothing.c" -pthread -o "$room/nothing" >/dev/null 2>&1 && "$room/nothing" >/dev/null 2>&1
}

# The users' tests with these flags; the words are how many operations each makes.
try_users() {
    name=$1 flags=$2 map=$3 queue=$4 loop=$5
    common=$users/common/crew.c
    mkdir -p "$room/$name"
    # (in place of the archive's own, which no checker sees)
    # shellcheck disable=SC2086
    $CC -std=c11 $STRICT $flags -I"$top/include" -c "$top/library/workers.c" -o "$room/$name/workers.o" || { fail "$name: workers.c"; return; }
    compile "$flags" "$room/$name/misuse" "$users/misuse/test_misuse.c" "$common" && run "$name" "$room/$name/misuse" || failed=1
    # (where the linker leads the library's calls for memory through the test)
    wraps=-Wl,--wrap=malloc,--wrap=realloc,--wrap=aligned_alloc
    if works "$wraps"; then
        # (in a shell of its own, which keeps the flags of the others)
        (compile "$flags $wraps" "$room/$name/memory" "$users/misuse/test_memory.c" "$common") && run "$name" "$room/$name/memory" || failed=1
    else
        say "$name: $CC does not link by --wrap: memory that is refused is not tried"
    fi
    compile "$flags" "$room/$name/map" "$users/map/map.c" "$users/map/test_map.c" "$common" && run "$name" "$room/$name/map" "$map" || failed=1
    compile "$flags" "$room/$name/queue" "$users/queue/queue.c" "$users/queue/test_queue.c" "$common" && run "$name" "$room/$name/queue" "$queue" || failed=1
    compile "$flags" "$room/$name/loop" "$users/loop/test_loop.c" "$common" && run "$name" "$room/$name/loop" "$loop" || failed=1
    compile "$flags" "$room/$name/model" "$users/model/test_model.c" "$common" && run "$name" "$room/$name/model" "$loop" || failed=1
    compile "$flags" "$room/$name/renewal" "$users/renewal/test_renewal.c" "$common" && run "$name" "$room/$name/renewal" || failed=1
    case $name in
        address*) if "$room/$name/misuse" leak >/dev/null 2>&1; then fail "$name: a heap that is not closed is not told"; fi ;;
    esac
    if [ -x "$users/lisp/test.sh" ]; then
        run "$name" env CC="$CC" CFLAGS="-std=c11 $flags -I$top/include" LDFLAGS="$room/$name/workers.o $room/libcovremuj.a -pthread" "$users/lisp/test.sh" "$room/$name"
    fi
}

try_cpp() {
    has "$CXX" || { say "there is no $CXX: the wrapper for C++ is not tried"; return; }
    # shellcheck disable=SC2086
    if $CXX -std=c++17 $STRICT -O1 -I"$top/include" "$users/cpp/test_cpp.cc" "$room/libcovremuj.a" -pthread -o "$room/cpp"; then
        run "c++" "$room/cpp"
    else
        fail "the wrapper for C++ does not compile"
    fi
}

try_rust() {
    has cargo || { say "there is no cargo: the crate for Rust is not tried"; return; }
    cp -R "$top/bindings/rust" "$room/rust"
    if (cd "$room/rust" && COVREMUJ_LIB_DIR=$room CARGO_TARGET_DIR=$room/target cargo test --offline --quiet && COVREMUJ_LIB_DIR=$room CARGO_TARGET_DIR=$room/target cargo run --offline --quiet --example counter) >"$room/said" 2>&1; then
        echo "  rust: $(grep -c '^test result: ok' "$room/said") groups of tests, $(tail -n 1 "$room/said")"
    else
        cat "$room/said"
        fail "the crate for Rust"
    fi
}

# An installation, and a program that knows nothing of this repository.
try_install() {
    has make || { say "there is no make: the installation is not tried"; return; }
    if ! COVREMUJ_ARCHIVE=$room/libcovremuj.a make -s -C "$top/library" install PREFIX="$room/installed" BUILD="$room/again" CC="$CC" >"$room/said" 2>&1; then
        cat "$room/said"
        fail "make install"
        return
    fi
    flags="-I$room/installed/include -L$room/installed/lib -lcovremuj -pthread"
    if has pkg-config; then
        flags=$(PKG_CONFIG_PATH=$room/installed/lib/pkgconfig pkg-config --cflags --libs covremuj) || fail "pkg-config"
    else
        say "there is no pkg-config: covremuj.pc is not tried"
    fi
    cp "$users/first/first.c" "$room/first.c"
    # shellcheck disable=SC2086
    $CC -std=c11 $STRICT -O1 "$room/first.c" $flags -o "$room/first" && run installed "$room/first" || failed=1
}

has "$CC" || { say "there is no $CC: nothing of the library is built or tried"; exit 0; }
if ! "$top/library/build.sh" "$room"; then
    fail "the archive is not built"
    exit 1
fi
try_users plain -O2 2000 4000 100000
for checker in address,undefined thread; do
    flags="-O1 -g -fno-omit-frame-pointer -fsanitize=$checker -fno-sanitize-recover=all"
    if works "$flags"; then
        try_users "$checker" "$flags" 500 1000 30000
    else
        say "$CC makes no program here that runs under -fsanitize=$checker: that is not tried"
    fi
done
try_cpp
try_rust
try_install
[ $failed = 0 ] && say "all that is there passes"
exit $failed
