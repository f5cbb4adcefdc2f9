#!/bin/sh
# Shows each status of the built program but 7, and an answer of each command, with what then stands on standard output and
# standard error.
#
# Usage: scripts/statuses.sh [--large]
# The program is $IAMF_TOOL, or the one that the launcher builds. Status 6 needs some 2 GB of memory, and is shown with --large
# alone. Status 7 needs a system that does not give a program its words, and is not shown. The last line is
# `N passed, M failed`.

case $# in
    0) large= ;;
    *)
        large=$1
        if [ $# -ne 1 ] || [ "$large" != --large ]; then
            echo "usage: scripts/statuses.sh [--large]" >&2
            exit 2
        fi
        ;;
esac
top=$(cd "$(dirname "$0")/.." && pwd) || exit 2
tool=${IAMF_TOOL:-$top/crates/iamf_tool/out/iamf_tool}
[ -x "$tool" ] || "$top/iamf_tool" list </dev/null || exit 2
work=$(mktemp -d) || exit 2
trap 'rm -rf "$work"' EXIT
trap 'exit 130' INT TERM

passed=0
failed=0

# Judges the run that ended with $? = $2 and left out and notes in the folder:
# its status has to be $3, its notes $4, and its output the file $5.
judge() {
    if [ "$2" -eq "$3" ] && [ "$(cat "$work/notes")" = "$4" ] && cmp -s "$work/out" "$5"; then
        passed=$((passed + 1))
        echo "passed: $1"
    else
        failed=$((failed + 1))
        echo "failed: $1: status $2, $(cat "$work/notes")"
    fi
}

: >"$work/nothing"
sample=$top/samples/one_unit.iamf

"$tool" list <"$sample" >"$work/out" 2>"$work/notes"
judge "0: the sample lists" $? 0 '' "$top/crates/iamf_tool/stdout"

printf '%s\n' 'profile 0 0' 'codec 0 ipcm 8 48000 16' 'element 1 scalable 1 2' 'mix 2 1 1 fits' \
    'units 1' 'samples 8' >"$work/report"
"$tool" check <"$sample" >"$work/out" 2>"$work/notes"
judge "0: the sample is accepted" $? 0 '' "$work/report"

"$tool" canon <"$sample" >"$work/out" 2>"$work/notes"
judge "0: the sample is canonical" $? 0 '' "$sample"

"$tool" mux <"$sample" 2>"$work/notes" | "$tool" demux >"$work/out" 2>>"$work/notes"
judge "0: what the MP4 file of the sample holds is the sample" $? 0 '' "$sample"

# Its first bytes are no size of a box in it.
"$tool" demux <"$sample" >"$work/out" 2>"$work/notes"
judge "1: the sample is no MP4 file" $? 1 'refused 0 70' "$work/nothing"

# Two channels of 8 samples, as they stand at the end of the sample.
{
    printf 'RIFF\134\000\000\000WAVEfmt \050\000\000\000\376\377\002\000\200\273\000\000\000\356\002\000\004\000\020\000\026\000\020\000\003\000\000\000'
    printf '\001\000\000\000\000\000\020\000\200\000\000\252\000\070\233\161data\040\000\000\000'
    tail -c 32 "$sample"
} >"$work/wave"
"$tool" play 2 stereo <"$sample" >"$work/out" 2>"$work/notes"
judge "0: the mix of the sample is played" $? 0 '' "$work/wave"

"$tool" play 3 stereo <"$sample" >"$work/out" 2>"$work/notes"
judge "1: a mix that is not there is not played" $? 1 'unplayable 50' "$work/nothing"

"$tool" play 02 stereo <"$sample" >"$work/out" 2>"$work/notes"
judge "2: an id with a zero before it is none" $? 2 'usage: iamf_tool COMMAND < INPUT > OUTPUT' "$work/nothing"

# The sample's descriptors, its mix with a tag, as the first byte says: plain, and again as a redundant copy.
tagged_mix() {
    printf "$1\\045"
    tail -c +39 "$sample" | head -c 28
    printf '\001lang\000en\000'
}
{
    head -c 36 "$sample"
    tagged_mix '\020'
    tagged_mix '\024'
} >"$work/tagged"
printf '%s\n' 'profile 0 0' 'codec 0 ipcm 8 48000 16' 'element 1 scalable 1 2' 'mix 2 1 1 fits' 'tag lang en' \
    'units 0' 'samples 0' >"$work/tagged_report"
"$tool" check <"$work/tagged" >"$work/out" 2>"$work/notes"
judge "0: tags are reported once, and not of a redundant copy" $? 0 '' "$work/tagged_report"

for command in check canon mux "play 2 stereo"; do
    # shellcheck disable=SC2086
    head -c 68 "$sample" | "$tool" $command >"$work/out" 2>"$work/notes"
    judge "1: $command: a sample without its frame is refused at its end" $? 1 'refused 68 39' "$work/nothing"
done

head -c 20 "$sample" | "$tool" list >"$work/out" 2>"$work/notes"
judge "1: a cut sample is refused at its second OBU" $? 1 'refused 8 5' "$work/nothing"

"$tool" lost <"$sample" >"$work/out" 2>"$work/notes"
judge "2: a word that is no command" $? 2 'usage: iamf_tool COMMAND < INPUT > OUTPUT' "$work/nothing"

# Not every shell has this limit; where it has none, the status says so.
# shellcheck disable=SC3045
(ulimit -v 300000 && head -c 400000000 /dev/zero | "$tool" list) >"$work/out" 2>"$work/notes"
judge "3: more input than memory" $? 3 'out of memory' "$work/nothing"

"$tool" mux <"$sample" >"$work/file.mp4"
for command in list check canon mux demux "play 2 stereo"; do
    # shellcheck disable=SC2086
    "$tool" $command <"$work" >"$work/out" 2>"$work/notes"
    judge "4: $command: a folder cannot be read" $? 4 'read failed' "$work/nothing"

    input=$sample
    [ "$command" = demux ] && input=$work/file.mp4
    : >"$work/out"
    # shellcheck disable=SC2086
    "$tool" $command <"$input" >/dev/full 2>"$work/notes"
    judge "5: $command: a full device takes no byte" $? 5 'write failed' "$work/nothing"
done

: >"$work/notes"
head -c 20 "$sample" | "$tool" list >"$work/out" 2>/dev/full
judge "1: a refusal that cannot be noted keeps its status" $? 1 '' "$work/nothing"

if [ -n "$large" ]; then
    head -c 1073741825 /dev/zero | "$tool" list >"$work/out" 2>"$work/notes"
    judge "6: one byte more than 2^30" $? 6 'input too large' "$work/nothing"
fi

echo "$passed passed, $failed failed"
[ "$failed" -eq 0 ]
