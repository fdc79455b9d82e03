#!/usr/bin/env bash
# listing_test.sh LISTING HOST...: the proved program and the C host print the same for the same two files.
# Before the host a memory checker may stand. The proved program has no status of its own, so only the host's is tested.
set -u -o pipefail
cd "$(dirname "$0")/.." || exit 2
export LC_ALL=C
[ $# -ge 2 ] || { echo 'usage: listing_test.sh LISTING HOST...' >&2; exit 2; }

listing=$1
shift
host=("$@")
kept=$(mktemp -d) || exit 2
trap 'rm -rf "$kept"' EXIT
tested=0 failed=0 status=0

# expect WHAT COMMAND...: the command must succeed.
expect() {
    local what=$1
    shift
    tested=$((tested + 1))
    "$@" && return
    failed=$((failed + 1))
    echo "listing_test: FAILED: $what"
}

# Runs both programs with the arguments. What they print is kept, and the host's status.
run_both() {
    "$listing" "$@" >"$kept/listing.out" 2>"$kept/listing.err"
    "${host[@]}" "$@" >"$kept/host.out" 2>"$kept/host.err"
    status=$?
}

empty() { [ ! -s "$1" ]; }
one_line() { [ "$(wc -l <"$1")" -eq 1 ]; }
status_is() { [ "$status" -eq "$1" ]; }
last_line() { tail -n 1 "$1"; }

# prints WHAT PLAN PASSAGE FILE: both print the file and nothing else; its last line tells the host's status.
prints() {
    local what=$1 wanted=1
    run_both "$2" "$3"
    [[ $(last_line "$4") == 'end 0 '* ]] && wanted=0
    expect "$what: the proved program's listing" cmp "$kept/listing.out" "$4"
    expect "$what: the host's listing" cmp "$kept/host.out" "$4"
    expect "$what: the host's status $wanted" status_is "$wanted"
    expect "$what: the proved program's standard error" empty "$kept/listing.err"
    expect "$what: the host's standard error" empty "$kept/host.err"
}

# fails WHAT ARGUMENT...: both say a line on standard error and print nothing; the host's status is 2.
fails() {
    local what=$1 program
    shift
    run_both "$@"
    for program in listing host; do
        expect "$what: $program prints nothing" empty "$kept/$program.out"
        expect "$what: $program says a line on standard error" one_line "$kept/$program.err"
    done
    expect "$what: the host's status 2" status_is 2
}

examples() {
    local folder
    for folder in examples/*/; do prints "$folder" "$folder/plan" "$folder/passage" "$folder/listing"; done
}

unreadable() {
    local plan=examples/d1/plan passage=examples/d1/passage
    fails 'no argument'
    fails 'one argument' "$plan"
    fails 'no plan there' "$kept/none" "$passage"
    fails 'no passage there' "$plan" "$kept/none"
    fails 'no name' '' "$passage"
    fails 'a directory as plan' examples "$passage"
    fails 'a directory as passage' "$plan" examples
}

# The bytes of hexadecimal digits.
hex() {
    local digits=$1 escaped=
    while [ -n "$digits" ]; do escaped+="\\x${digits:0:2}" digits=${digits:2}; done
    printf '%b' "$escaped"
}

# repeated COUNT DIGITS
repeated() {
    local i
    for ((i = 0; i < $1; i++)); do printf '%s' "$2"; done
}

# The digits of rising numbers of two bytes, from 1.
rising() {
    local i
    for ((i = 1; i <= $1; i++)); do printf '%04X' "$i"; done
}

# 8 loggers, 32 kinds and 16 nodes, 128 events: only the last event gives a finding, by the last node.
longest_files() {
    hex "00010000000A0008$(rising 8)0020$(rising 32)0010$(repeated 15 030100010001FFFF)010100000001FFFF" >"$kept/plan"
    hex "0080$(repeated 127 000300010000000000000050)00010008000000000000005A" >"$kept/passage"
    printf 'node 15 at 8:90 from 127\nend 0 0 1 18\n' >"$kept/wanted"
}

# answers WHAT PLAN PASSAGE LINE: both print that line alone.
answers() {
    echo "$4" >"$kept/line"
    prints "$1" "$2" "$3" "$kept/line"
}

# longer FILE BYTES: a copy with zero bytes after it, so many bytes in all.
longer() {
    cp "$1" "$1.$2" && truncate -s "$2" "$1.$2"
    echo "$1.$2"
}

long_files() {
    local plan=$kept/plan passage=$kept/passage bytes
    longest_files
    prints 'the longest files' "$plan" "$passage" "$kept/wanted"
    for bytes in 221 100000; do
        answers "a plan of $bytes bytes" "$(longer "$plan" "$bytes")" "$passage" 'end 12 220 0 0'
    done
    for bytes in 1539 100000; do
        answers "a passage of $bytes bytes" "$plan" "$(longer "$passage" "$bytes")" 'end 26 1538 0 0'
    done
    : >"$kept/zeros"
    answers '100,000 zeros as plan' "$(longer "$kept/zeros" 100000)" "$passage" 'end 2 0 0 0'
    answers '100,000 zeros as passage' "$plan" "$(longer "$kept/zeros" 100000)" 'end 26 2 0 0'
}

# A file that comes in pieces.
in_pieces() { head -c 7 "$1" && sleep 0.1 && tail -c +8 "$1"; }

# pieces PROGRAM...: what it prints of the four spans' files, both in pieces.
pieces() { "$@" <(in_pieces examples/bridge-late/plan) <(in_pieces examples/bridge-late/passage); }

piped_files() {
    local wanted=examples/bridge-late/listing
    expect 'in pieces: the proved program'"'"'s listing' cmp <(pieces "$listing") "$wanted"
    expect 'in pieces: the host'"'"'s listing' cmp <(pieces "${host[@]}") "$wanted"
}

# The proved program cannot tell that its output was lost; the host does.
full_disk() {
    "${host[@]}" examples/output-end/plan examples/output-end/passage >/dev/full 2>"$kept/host.err"
    status=$?
    expect 'full disk: a line on standard error' one_line "$kept/host.err"
    expect 'full disk: status 2' status_is 2
}

examples
unreadable
long_files
piped_files
full_disk
echo "listing_test: $tested tested, $failed failed"
[ "$failed" -eq 0 ]
