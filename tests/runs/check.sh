#!/bin/sh
# check.sh PROGRAM_DIR: runs desk, pair, replay and conform of that folder over each stored input NAME.in, with the words of
# NAME.arguments where there are any, and compares what they write with NAME.out, and on standard error with NAME.err or
# nothing. Then faults: an output that is full, an input that cannot be read. Ends with 0 if all is the same.
set -u
programs=$(cd "${1:?usage: check.sh PROGRAM_DIR}" && pwd) || exit 2
cd "$(dirname "$0")" || exit 2
wrote=$(mktemp) && told=$(mktemp) && fault=$(mktemp) || exit 2
trap 'rm -f "$wrote" "$told" "$fault"' EXIT
runs=0 failed=0

# judge RUN STATUS OUT ERR: counts a run, and says where it differs.
judge() {
    runs=$((runs + 1))
    if [ "$2" -ne 0 ] || ! cmp -s "$3" "$wrote" || ! cmp -s "$4" "$told"; then
        failed=$((failed + 1))
        echo "$1 differs (status $2):"
        { diff "$3" "$wrote"; diff "$4" "$told"; } | head -n 20
    fi
}

for program in desk pair replay conform; do
    for input in "$program"/*.in; do
        run=${input%.in}
        words= errors=/dev/null
        [ -f "$run.arguments" ] && words=$(cat "$run.arguments")
        [ -f "$run.err" ] && errors=$run.err
        # Each word is an argument.
        (cd "$program" && exec "$programs/$program" $words) <"$input" >"$wrote" 2>"$told"
        judge "$run" $? "$run.out" "$errors"
    done
    echo "$program: cannot write" >"$fault"
    : >"$wrote"
    "$programs/$program" <"$program/settings-refused.in" >/dev/full 2>"$told"
    judge "$program with a full output" 0 /dev/null "$fault"
    echo "$program: cannot read" >"$fault"
    "$programs/$program" <. >"$wrote" 2>"$told"
    judge "$program with a folder as its input" 0 /dev/null "$fault"
done
echo "$runs runs, $failed differ"
[ "$failed" -eq 0 ] && [ "$runs" -gt 0 ]
