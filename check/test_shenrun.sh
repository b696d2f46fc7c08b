#!/bin/sh
# Tests the script `shenrun` on throwaway copies, with programs and an `rt` that only pretend. With --real it also runs the
# sources by the real `rt try` (half a minute each).
#
# usage: test_shenrun.sh [--real]
set -u
top=$(cd "$(dirname "$0")/.." && pwd -P)
room=$(mktemp -d)
trap 'rm -rf "$room"' EXIT
failed=0

# The tools that the script uses, and nothing else.
mkdir "$room/tools" "$room/bin"
for tool in sh cat chmod cksum cmp cp dirname find grep head mkdir mktemp mv readlink rm sleep sort tail touch xargs; do
    ln -s "$(command -v "$tool")" "$room/tools/$tool"
done

# An rt that does what the file `says` beside it names, and writes down how it was called.
cat >"$room/bin/rt" <<'END'
#!/bin/sh
here=$(dirname "$0")
echo "$*" >>"$here/called"
case $(cat "$here/says") in
answers)
    wc -c | tr -d ' '
    echo 'run=ended status=0 runners=1 proved=no' >&2 ;;
refuses)
    echo 'bad words'
    echo 'run=ended status=2 runners=1 proved=no' >&2
    exit 2 ;;
unfinished)
    echo 'unfinished after 7 steps'
    echo 'run=ended status=4 runners=1 proved=no' >&2
    exit 4 ;;
no-answer)
    echo 'checked: no-answer: the program did not end within the time limit' >&2
    echo 'run=no-answer proved=no' >&2
    exit 6 ;;
broken)
    echo 'src/replay.rt:1:1: error[unknown-name]: cannot find value' >&2
    echo 'run=none proved=no' >&2
    exit 1 ;;
esac
END
chmod +x "$room/bin/rt"
for tool in wc tr; do ln -s "$(command -v "$tool")" "$room/tools/$tool"; done

# A checkout without what rt made.
checkout() {
    rm -rf "$1"
    mkdir -p "$1"
    cp "$top/shenrun" "$top/program.sh" "$top/crates.txt" "$top/HANDLES" "$1"
    (cd "$top" && find crates/*/src crates/*/specs -type f) | while read -r file; do
        mkdir -p "$1/$(dirname "$file")"
        cp "$top/$file" "$1/$file"
    done
}

# A proved program as rt leaves one: it says who it is.
leave() {
    mkdir -p "$1/crates/shenrun/out"
    cat >"$1/crates/shenrun/out/shenrun" <<END
#!/bin/sh
[ "\${1-}" = replay ] || { echo 'bad words'; exit 2; }
cat >/dev/null
echo 'the proved program $2'
case \$0 in /*) exit 8 ;; esac
END
    chmod +x "$1/crates/shenrun/out/shenrun"
}

# call WHAT STATUS OUTPUT ERROR CALLS FOLDER WORD..: calls the script, and compares the status, the output, a text that
# the standard error has (none: it is empty), its number of lines, and how often rt was called.
call() {
    what=$1 status=$2 output=$3 error=$4 calls=$5 folder=$6
    shift 6
    : >"$room/bin/called"
    PATH=$path "$folder/shenrun" "$@" <"$room/stdin" >"$room/stdout" 2>"$room/stderr"
    got=$?
    well=yes
    [ "$got" = "$status" ] || well="status $got and not $status"
    [ "$(cat "$room/stdout")" = "$output" ] || well="output $(cat "$room/stdout")"
    [ "$(grep -c . "$room/bin/called")" = "$calls" ] || well="rt was called $(grep -c . "$room/bin/called") times"
    if [ -z "$error" ]; then
        [ ! -s "$room/stderr" ] || well="standard error $(cat "$room/stderr")"
    else
        grep -q -- "$error" "$room/stderr" || well="standard error $(cat "$room/stderr")"
        grep -qv '^shenrun: ' "$room/stderr" && well="standard error $(cat "$room/stderr")"
    fi
    if [ "$well" = yes ]; then
        echo "ok      $what"
    else
        echo "FAILED  $what: $well"
        failed=1
    fi
}

with_rt=$room/bin:$room/tools
path=$with_rt
copy=$room/copy
printf 'twelve bytes' >"$room/stdin"

checkout "$copy"
echo answers >"$room/bin/says"
call 'nothing is proved: rt try answers, and one line names rt ci' 0 12 'rt ci' 1 "$copy" replay
[ "$(cat "$room/bin/called")" = 'try --seconds 30 -- replay' ] || { echo 'FAILED  how rt is called'; failed=1; }
[ "$(wc -l <"$room/stderr")" -eq 1 ] || { echo 'FAILED  one line on the standard error'; failed=1; }
call 'words that it does not take are refused before anything is built' 2 'bad words' 'docs/FORMATS.md' 0 "$copy" replay --steps 0
call 'and a word that is not UTF-8, as the proved program does' 8 '' '' 0 "$copy" "$(printf '\377')"
SHENRUN_PROVED=1
export SHENRUN_PROVED
call 'nothing that is not proved runs where that is asked for' 1 '' 'SHENRUN_PROVED=1' 0 "$copy" replay
unset SHENRUN_PROVED
echo unfinished >"$room/bin/says"
call 'its bytes and status are kept' 4 'unfinished after 7 steps' 'not proved yet' 1 "$copy" replay --steps 7
echo refuses >"$room/bin/says"
call 'refused words name the page of formats' 2 'bad words' 'docs/FORMATS.md' 1 "$copy" run
echo no-answer >"$room/bin/says"
call 'a trace too large for the unproved way is told so' 1 '' 'too large' 1 "$copy" replay
echo broken >"$room/bin/says"
call 'sources that do not build are told so' 1 '' 'src/replay.rt:1:1: error' 1 "$copy" replay
path=$room/tools
call 'no toolchain is told in one line' 1 '' 'no rt on the path' 0 "$copy" replay
path=$with_rt
TMPDIR=$room/nowhere
export TMPDIR
call 'no folder for temporary files is told in one line' 1 '' 'cannot be written' 0 "$copy" replay
unset TMPDIR

leave "$copy" A
call 'the proved program runs at once' 0 'the proved program A' '' 0 "$copy" replay
call 'refused words name the page of formats there too' 2 'bad words' 'docs/FORMATS.md' 0 "$copy" run
path=$room/tools
call 'also without a toolchain' 0 'the proved program A' '' 0 "$copy" replay
path=$with_rt
mv "$copy/crates/shenrun/out" "$room/aside"
call 'also while rt ci has set it aside' 0 'the proved program A' '' 0 "$copy" replay
mkdir "$copy/crates/shenrun/out"
: >"$copy/crates/shenrun/out/shenrun"
chmod +x "$copy/crates/shenrun/out/shenrun"
touch -t 203001010000 "$copy/crates/shenrun/out/shenrun"
call 'one that is not whole yet is not taken' 0 'the proved program A' '' 0 "$copy" replay
leave "$copy" B
touch -t 203001010000 "$copy/crates/shenrun/out/shenrun"
call 'a newer one is' 0 'the proved program B' '' 0 "$copy" replay

leave "$copy" B
call 'so is the next' 0 'the proved program B' '' 0 "$copy" replay
touch "$copy/crates/trace_runs/src/replays.rt"
call 'a source that was only touched changes nothing' 0 'the proved program B' '' 0 "$copy" replay
touch -t 203001010000 "$copy/crates/trace_runs/src/replays.rt"
call 'nor does one of the future' 0 'the proved program B' '' 0 "$copy" replay
rm -rf "$copy/out"
call 'also where the program was not taken before' 0 'the proved program B' '' 0 "$copy" replay

echo '// changed' >>"$copy/crates/trace_runs/src/replays.rt"
echo answers >"$room/bin/says"
call 'a source that changed: rt try answers, and says so' 0 12 'a source has changed' 1 "$copy" replay
path=$room/tools
call 'without a toolchain the proved program runs, and says so' 0 'the proved program B' 'a source is newer' 0 "$copy" replay
path=$with_rt
echo broken >"$room/bin/says"
call 'so it does where the sources do not build' 0 'the proved program B' 'a source is newer' 1 "$copy" replay
echo no-answer >"$room/bin/says"
call 'and where the trace is too large' 0 'the proved program B' 'a source is newer' 1 "$copy" replay
[ -x "$copy/out/shenrun" ] && [ -x "$copy/crates/shenrun/out/shenrun" ] || { echo 'FAILED  both programs are still there'; failed=1; }

checkout "$copy"
leave "$copy" C
: >"$copy/out"
call 'a folder that cannot be written is told in one line' 0 'the proved program C' 'the folder out cannot be written' 0 "$copy" replay

odd=$room/$(printf 'no\377text')
if mkdir "$odd" 2>/dev/null; then
    checkout "$odd"
    echo answers >"$room/bin/says"
    call 'under a path that is not UTF-8 rt try answers' 0 12 'not proved yet' 1 "$odd" replay
    leave "$odd" D
    call 'and the proved program' 0 'the proved program D' '' 0 "$odd" replay
fi
ln -s "$copy/shenrun" "$room/link"
rm "$copy/out"
mkdir "$room/elsewhere"
ln -s ../link "$room/elsewhere/shenrun"
call 'a link to the script runs it' 0 'the proved program C' '' 0 "$room/elsewhere" replay

checkout "$copy"
echo answers >"$room/bin/says"
mkfifo "$room/pipe"
(printf 'slow '; sleep 3; printf 'bytes') >"$room/pipe" &
mv "$room/stdin" "$room/quick"
ln -s pipe "$room/stdin"
call 'a slow pipe is read to its end' 0 10 'not proved yet' 1 "$copy" replay

if [ "${1-}" = --real ]; then
    rm "$room/stdin" "$room/bin/rt"
    path=$PATH
    cp "$top/examples/first.trace" "$room/stdin"
    call 'the real rt answers the first example' 0 "$(cat "$top/examples/first.answer")" 'not proved yet' 0 "$copy" replay
    checkout "$odd"
    call 'also under a path that is not UTF-8' 0 "$(cat "$top/examples/first.answer")" 'not proved yet' 0 "$odd" replay
    cp "$top/examples/no_room.trace" "$room/stdin"
    call 'a run without an end is told to be too large' 1 '' 'too large' 0 "$copy" replay --steps 4000000000
fi
exit $failed
