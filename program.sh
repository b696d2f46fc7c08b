# Runs a program of this repository on its words and the standard input. A script at the top reads this file, in that folder,
# once it has set
#   program      the name of its crate
#   unasked      what the program writes without words and without input, by which a whole one is known
#   refusal      the line by which the program refuses words
#   refusals     2 if it writes such lines to the standard error
#   told         the first words of other lines that it writes there, with | between
#   page         the page that has the words
#   reads_input  a function: whether these words make the program read its input
#   may_be_words a function: whether the program may take these words, by which others are refused before anything is built
#   help_text    a function, if the program has the word --help: writes what that writes; --version is then answered, too
#
# The proved program is the one that `rt ci`, or `rt run` in the crate's folder, has left there; a copy of the last one is kept
# in out/, so that it runs at once, also while a later `rt ci` has set it aside. Where there is none, or a source has
# changed since, `rt try` runs the program from its sources, unproved and slower, and a line on the standard error says so.
# This proves nothing. Its own failures end with 1; any other status is the program's. Where the environment says SHENRUN_PROVED=1,
# nothing is run that is not proved.

say() {
    printf '%s: %s\n' "$program" "$1" >&2
}

left=crates/$program/out/$program # what rt left
kept=out/$program                 # the copy of the last one
sums=out/$program.sources         # the sums of the sources that it was made of
room=                             # a folder for this call, once there is one

finish() {
    if [ -n "$room" ]; then
        chmod -R u+w "$room" 2>/dev/null
        rm -rf "$room"
    fi
    exit "$1"
}
trap 'finish 129' HUP
trap 'finish 130' INT
trap 'finish 143' TERM

# The files that say what the program does, and what is said of it.
sources() {
    find crates.txt crates/*/src crates/*/specs -type f ! -name tests.rt "$@"
}

sums_now() {
    sources | LC_ALL=C sort | xargs cksum
}

is_newer() {
    [ ! -e "$2" ] || [ -n "$(find "$1" -newer "$2")" ]
}

# Whether a source is newer than the program that rt left. One whose time lies in the future counts as old.
is_outdated() {
    now=$(mktemp 2>/dev/null) || return 0
    sources -newer "$left" ! -newer "$now" | grep -q .
    outdated=$?
    rm -f "$now"
    return $outdated
}

# Takes the program that rt left, if it is newer than the copy: beside it first, and only where it answers.
take() {
    [ -x "$left" ] && is_newer "$left" "$kept" || return 0
    if ! { mkdir -p out && : >out/new.$$; } 2>/dev/null; then
        # Of a checkout that nobody is to write nothing is said.
        [ ! -w . ] || say "the folder out cannot be written, so the proved program is not kept for the time of a later rt ci"
        return 0
    fi
    cp "$left" out/new.$$ && chmod +x out/new.$$
    if [ "$(out/new.$$ </dev/null 2>&1)" = "$unasked" ]; then
        if is_outdated; then rm -f "$sums"; else sums_now >"$sums"; fi
        mv -f out/new.$$ "$kept"
    else
        rm -f out/new.$$
    fi
}

# Whether the copy was made of the sources as they are.
is_fresh() {
    [ -x "$kept" ] && [ -f "$sums" ] && [ "$(sums_now)" = "$(cat "$sums")" ]
}

# Ends as the program ended.
end_with() {
    [ "$1" -ne 2 ] || say "$page has the words that the program takes"
    finish "$1"
}

# Whether a word is a number from 1 to this one, as a trace spells it.
is_number() {
    case $1 in
        '' | *[!0-9]* | 0*) return 1 ;;
    esac
    [ "${#1}" -le 10 ] && [ "$1" -le "$2" ]
}

# Refuses words as the program does, before anything is built: those that are not UTF-8, and those that it does not take.
judge() {
    for word in "$@"; do
        if printf '%s' "$word" | LC_ALL=C.UTF-8 grep -qaxv '.*'; then
            finish 8
        fi
    done
    if ! may_be_words "$@"; then
        printf '%s\n' "$refusal" >&"${refusals:-1}"
        end_with 2
    fi
}

# Writes which text the program is of, and whether it is proved.
version() {
    kit=$( (rt version || echo 'kit unknown') 2>/dev/null)
    commit=$(git rev-parse --short HEAD 2>/dev/null || echo none)
    proof=unproved
    if is_fresh; then proof=proved; fi
    printf '%s, sum of the sources %s, commit %s, %s\n%s\n' "$program" "$(sums_now | cksum | cut -d ' ' -f 1)" "$commit" "$proof" "$kit"
    finish 0
}

# Runs a proved program, in its own folder, so that the name by which it is called is short.
proved() {
    folder=$(dirname "$1")
    shift
    (cd "$folder" && exec "./$program" "$@")
    end_with $?
}

# Runs the proved program that there is, which is of other sources, or says why nothing runs.
instead() {
    why=$1
    shift
    for there in "$kept" "$left"; do
        if [ -x "$there" ]; then
            say "a source is newer than the proved program, which runs all the same: $why"
            [ -z "$room" ] || exec <"$room/trace"
            proved "$there" "$@"
        fi
    done
    say "$why"
    finish 1
}

# Runs the program from its sources, without a proof.
unproved() {
    if [ "${SHENRUN_PROVED-}" = 1 ]; then
        say "there is no proved program of these sources, and SHENRUN_PROVED=1 wants one (rt ci makes it)"
        finish 1
    fi
    command -v rt >/dev/null || instead "there is no rt on the path, and nothing else builds the program" "$@"
    room=$(mktemp -d 2>/dev/null) || instead "the folder ${TMPDIR:-/tmp} cannot be written" "$@"
    if [ -x "$kept" ] || [ -x "$left" ]; then
        say "a source has changed since the last proof, so this answer is of the sources, unproved (rt ci makes the proved program)"
    else
        say "not proved yet, so this takes half a minute (rt ci proves it, and then it runs at once)"
    fi
    # One byte more than a trace may have is enough. Other words are refused before anything is read.
    if ! reads_input "$@"; then
        : >"$room/trace"
    elif ! head -c 16777217 >"$room/trace" 2>/dev/null; then
        say "the standard input cannot be read, or $room cannot hold it"
        finish 1
    fi
    cp crates.txt HANDLES "$room"
    for crate in crates/*/; do
        mkdir -p "$room/$crate"
        cp -R "$crate/src" "$crate/specs" "$room/$crate" 2>/dev/null
    done
    chmod -R u+w "$room"
    (cd "$room/crates/$program" && exec rt try --seconds 30 -- "$@") <"$room/trace" >"$room/answer" 2>"$room/said"
    status=$?
    case $(tail -n 1 "$room/said") in
        run=ended*)
            cat "$room/answer" 2>/dev/null || status=6
            # What the program has written to the standard error stands among the lines of rt.
            [ "${refusals:-1}" = 1 ] || grep -E "^(bad (words|line)|too long|read fault|out of memory${told:+|$told})" "$room/said" >&2
            end_with "$status"
            ;;
        run=no-answer*)
            instead "the unproved program has 30 seconds and a million bytes of answer, and this trace is too large for it (rt ci makes the proved program, which has no such limits)" "$@"
            ;;
        *)
            instead "rt try does not run the sources: $(grep -m 1 'error' "$room/said" || tail -n 1 "$room/said")" "$@"
            ;;
    esac
}

take
if command -v help_text >/dev/null; then
    case $#:${1-} in
        1:--version) version ;;
        1:--help)
            help_text
            finish 0
            ;;
    esac
fi
if is_fresh; then
    proved "$kept" "$@"
elif [ ! -w out/. ] && [ -x "$left" ] && ! is_outdated; then
    proved "$left" "$@"
fi
judge "$@"
unproved "$@"
