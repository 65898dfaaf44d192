#!/bin/sh
# Tests the programs as they are built without proof: two minutes in a fresh clone on four processors.
#
#     scripts/test.sh [PART..]
#
# It builds the programs that the parts run, all at once, unless they are there and current, and then
# runs the parts side by side:
#
#     rows         what starlark_rows prints for its stored input
#     runs         the stored runs of starlark_lex, starlark_tokens and starlark_examples
#     stored       what is stored, against plain bodies; this runs no program
#     fuzz         random texts, against the plain lexer
#     edits        random edits of texts
#     recovered    random texts that are lexed on after their faults
#     documents    random edits of documents
#     status       exit status, arguments and messages of starlark_lex
#     reports      what starlark_tokens reports
#     refused      each allocation of the programs refused in turn
#     pages        what the pages show
#
# Each part has a line, and out/test/PART.log what its scripts printed: the first text for which two
# differ. A part that failed also shows its end. A failed build has its words in out/test/CRATE.log.
# A proved program that is current is run in place of an unproved one. A proof finds what this
# doesn't: it is no gate. The last line is `N passed, N failed`, and the exit status 1 if any failed.
set -u

cd "$(dirname -- "$0")/.." || exit 1
parts='rows runs stored fuzz edits recovered documents status reports refused pages'
logs=out/test

# Runs an oracle over the programs that are there, proved or not.
try() {
    script=$1
    shift
    "scripts/$script" --unproved "$@"
}

# The programs that a part runs.
programs_of() {
    case $1 in
    rows | edits | recovered | documents) echo starlark_rows ;;
    runs) echo starlark_lex starlark_tokens starlark_examples ;;
    fuzz | status) echo starlark_lex ;;
    reports | pages) echo starlark_lex starlark_tokens ;;
    refused) echo starlark_lex starlark_rows starlark_tokens ;;
    esac
}

# Runs a part whose programs are built.
try_part() {
    case $1 in
    rows) try oracles/stored_runs.py starlark_rows ;;
    runs) try oracles/stored_runs.py starlark_lex starlark_tokens starlark_examples ;;
    stored)
        try oracles/stored_texts.py && try oracles/stored_indices.py && try oracles/recovered_texts.py &&
            try oracles/document_edits.py
        ;;
    fuzz) try oracles/fuzz.py --count 3000 ;;
    edits) try oracles/random_edits.py --texts 20 ;;
    recovered) try oracles/recovered_texts.py --count 2000 --stored ;;
    documents) try oracles/document_edits.py --edits 2000 ;;
    status) try oracles/exit_status.py ;;
    reports) try oracles/token_reports.py --count 40 ;;
    refused) try oracles/refused_memory.py ;;
    pages) try checks/pages.py ;;
    esac
}

# Waits until the programs of a part are built; fails where a build failed.
wait_for_programs() {
    for crate in $(programs_of "$1"); do
        until [ -e "$logs/$crate.status" ]; do sleep 0.2; done
        [ "$(cat "$logs/$crate.status")" = 0 ] || {
            echo "$crate isn't built: $logs/$crate.log says why"
            return 1
        }
    done
}

# Runs a part, and prints its line.
tell_part() {
    log=$logs/$1.log
    begun=$(date +%s)
    if wait_for_programs "$1" >"$log" 2>&1; then
        waited=$(($(date +%s) - begun))
        try_part "$1" >"$log" 2>&1
        status=$?
    else
        waited=0
        status=1
    fi
    seconds=$(($(date +%s) - begun - waited))
    if [ "$status" = 0 ]; then
        printf '%-10s passed in %3d s: %s\n' "$1" "$seconds" "$(tail -n 1 "$log" | cut -c1-100)"
    else
        printf '%-10s FAILED in %3d s: %s has all of this\n%s\n' "$1" "$seconds" "$log" \
            "$(tail -n 8 "$log" | cut -c1-200 | sed 's/^/    /')"
    fi
    echo "$status" >"$logs/$1.ended"
}

[ $# -gt 0 ] || {
    # shellcheck disable=SC2086
    set -- $parts
}
for part do
    case " $parts " in *" $part "*) ;; *)
        echo "test.sh: there is no part $part; the parts are: $parts" >&2
        exit 2
        ;;
    esac
done
rm -rf "$logs"
mkdir -p "$logs"
begun=$(date +%s)
for crate in $(for part do programs_of "$part"; done | tr ' ' '\n' | sort -u); do
    {
        (cd scripts && python3 -c "from shared.programs import built; built('$crate')" --unproved) \
            >"$logs/$crate.log" 2>&1
        echo $? >"$logs/$crate.new"
        mv "$logs/$crate.new" "$logs/$crate.status"
    } &
done
for part do tell_part "$part" & done
wait
passed=$(cat "$logs"/*.ended | grep -cx 0)
printf 'in %d seconds\n%d passed, %d failed\n' $(($(date +%s) - begun)) "$passed" $(($# - passed))
[ "$passed" = $# ]
