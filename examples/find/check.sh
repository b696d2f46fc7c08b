#!/bin/sh
# Runs each test through ./shenfind, and compares the trace that it writes and its status with what stands beside the test: a test without
# a trace holds. Each trace is also replayed.
cd "$(dirname "$0")" || exit 1
failed=0
number=0
for test in *.test; do
    name=${test%.test}
    wanted=0
    [ -e "$name.trace" ] && wanted='10 or 11'
    got=$(../../shenfind all <"$test" 2>/dev/null; echo "status $?")
    case $wanted:${got##*status } in
        0:0) number=$((number + 1)) ;;
        *or*:10 | *or*:11)
            if [ "$got" = "$(cat "$name.trace"; echo "status ${got##*status }")" ] && ../../shenrun replay <"$name.trace" >/dev/null; then
                number=$((number + 1))
            else
                echo "examples/find/$name: another trace than examples/find/$name.trace"
                failed=1
            fi
            ;;
        *)
            echo "examples/find/$name: status ${got##*status }, and not $wanted"
            failed=1
            ;;
    esac
done
echo "$number tests gave their answers"
exit $failed
