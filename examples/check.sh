#!/bin/sh
# Runs each example through ./shenrun and compares what it writes, and its status, with the answer beside it. Names and
# words are those of the table in README.md; each trace has to stand there. An example without a trace reads nothing.
# Where there is no proved program, `rt try` builds one for all examples, unproved.
cd "$(dirname "$0")" || exit 1
failed=0
number=0
room=
# An empty input is no trace, as a proved program says.
SHENRUN_PROVED=1 ../shenrun replay </dev/null >/dev/null 2>&1
if [ $? -ne 3 ]; then
    echo 'examples/check.sh: not proved yet, so rt try builds the program once for all examples' >&2
    room=$(mktemp -d) || exit 1
    trap 'rm -rf "$room"' EXIT
fi

# Whether each example whose words and trace lie in the folder gives its answer, as `rt try` runs it.
try_all() {
    (cd ../crates/shenrun && rt try --cases "$room/cases") >"$room/said" 2>&1
    for answer in *.answer; do
        name=${answer%.answer}
        [ -e "$room/cases/$name" ] || continue
        status=0
        grep -q '^unfinished' "$answer" && status=4
        if grep -q "^case=$name run=ended status=$status .*output=expected" "$room/said"; then
            number=$((number + 1))
        else
            echo "examples/$name: another answer than examples/$answer: $(grep "^case=$name " "$room/said")"
            failed=1
        fi
    done
}
while IFS='|' read -r _ name words _; do
    case $name in
        *\`*\`*) ;;
        *) continue ;;
    esac
    name=$(echo "$name" | tr -d ' `')
    words=$(echo "$words" | tr -d '`')
    status=0
    trace=$name.trace
    [ -e "$trace" ] || trace=/dev/null
    if [ -n "$room" ]; then
        mkdir -p "$room/cases"
        cat "$trace" >"$room/cases/$name"
        echo "$words" | sed 's/^ *//; s/ *$//' | tr ' ' '\n' >"$room/cases/$name.args"
        cp "$name.answer" "$room/cases/$name.stdout"
        continue
    fi
    grep -q '^unfinished' "$name.answer" && status=4
    # The words are split at the spaces, as on a command line.
    # shellcheck disable=SC2086
    got=$(../shenrun $words <"$trace"; echo "status $?")
    if [ "$got" = "$(cat "$name.answer"; echo "status $status")" ]; then
        number=$((number + 1))
    else
        echo "examples/$name: another answer than examples/$name.answer"
        failed=1
    fi
done <README.md
[ -z "$room" ] || try_all
for trace in *.trace; do
    grep -q "^| \`${trace%.trace}\` |" README.md || { echo "examples/$trace is not in the table of README.md"; failed=1; }
done
echo "$number examples gave their answers"
exit $failed
