#!/bin/sh
# Shows that scripts/examine says of each sample, and of each real file where there are some, what is known of it.
#
# Usage: scripts/examined.sh [FOLDER]
# FOLDER has an EXPECTED.tsv, as for scripts/corpus.sh. The program is $IAMF_TOOL, or the launcher. The last line is
# `N passed, M failed`, and the status is 0 only where none failed.

top=$(cd "$(dirname "$0")/.." && pwd) || exit 2
tool=${IAMF_TOOL:-$top/iamf_tool}
examine=$top/scripts/examine
work=$(mktemp -d) || exit 2
trap 'rm -rf "$work"' EXIT
trap 'exit 130' INT TERM

passed=0
failed=0

# Judges a run that ended with $2 and wrote into the folder: its status has to be $3, and a line has to have the text $4.
judge() {
    if [ "$2" -eq "$3" ] && grep -qF -e "$4" "$work/out"; then
        passed=$((passed + 1))
    else
        failed=$((failed + 1))
        printf 'failed: %s: status %s, no line with: %s\n' "$1" "$2" "$4"
    fi
}

sample=$top/samples/one_unit.iamf
"$examine" "$sample" >"$work/out" 2>&1
judge "the sample" $? 0 'audio element 1: scalable channels, 1 substream, 2 channels'
head -c 68 "$sample" >"$work/cut.iamf"
"$examine" "$work/cut.iamf" >"$work/out" 2>&1
status=$?
judge "a cut sample" $status 1 'refused at byte 68 by code 39'
judge "what to do about it" $status 1 'UnitShort'
judge "the OBUs around it" $status 1 'temporal delimiter'
judge "its end" $status 1 'the end'
"$examine" "$sample" "$work/cut.iamf" >"$work/out" 2>&1
status=$?
judge "two files" $status 1 'one_unit.iamf: bare sequence: sound, 1 temporal unit, 8 samples'
judge "two files" $status 1 'cut.iamf: bare sequence: refused 68 39 (UnitShort)'
"$examine" "$work/none.iamf" "$sample" >"$work/out" 2>&1
judge "a file that is not there" $? 2 'sound'

# The answers on real files, by the last command of their line; a line that the program has no command for is passed over.
if [ $# -eq 1 ]; then
    while IFS="$(printf '\t')" read -r name commands answer; do
        case $commands in
            check) ;;
            demux*) "$tool" demux <"$1/$name" >/dev/null 2>&1; [ $? -ne 2 ] || continue ;;
            *) continue ;;
        esac
        "$examine" "$1/$name" >"$work/out" 2>&1
        status=$?
        case $answer in
            refused*)
                place=${answer#refused }
                judge "$name" $status 1 "refused at byte ${place% *}"
                judge "$name" $status 1 "code ${answer##* }"
                ;;
            *) judge "$name" $status 0 " of each channel" ;;
        esac
    done <"$1/EXPECTED.tsv"
fi

echo "$passed passed, $failed failed"
[ "$failed" -eq 0 ]
