#!/bin/sh
# Runs the program over a folder of real files.
#
# Usage: scripts/corpus.sh FOLDER
# FOLDER has an EXPECTED.tsv: a line per file with the file, the commands (`demux|check` is a pipe of two)
# and the answer, which is the lines written, joined by "; ", or the line of the refusal.
# Besides, of every bare file (*.iamf):
# - it lists, and its lines tile it;
# - where it is accepted, `canon` writes a file that lists and tiles too, that `check` reports on by the same lines,
#   and that `canon` writes again byte for byte;
# - where it is refused, `canon` refuses it by the same line, and neither command writes anything.
# The program is $IAMF_TOOL, or the launcher. The last line is `N passed, M failed`. The status is 0 only where none
# failed, and 2 for a wrong call.
set -f

top=$(cd "$(dirname "$0")/.." && pwd) || exit 2
tool=${IAMF_TOOL:-$top/iamf_tool}
folder=${1-}
if [ $# -ne 1 ] || [ ! -f "$folder/EXPECTED.tsv" ]; then
    echo "usage: scripts/corpus.sh FOLDER, with an EXPECTED.tsv in the folder" >&2
    exit 2
fi
work=$(mktemp -d) || exit 2
trap 'rm -rf "$work"' EXIT
trap 'exit 130' INT TERM

passed=0
failed=0

fail() {
    failed=$((failed + 1))
    printf 'failed: %s\n' "$*"
}

# The lines of a text, joined by "; ".
joined() {
    awk '{ printf "%s%s", (NR > 1 ? "; " : ""), $0 }' "$1"
}

# Runs a command on a file, and sets `status`, and `answer` to its notes where it does not end with 0.
# What it writes stands in the file $3.
run() {
    # The words of a command are parted by spaces.
    # shellcheck disable=SC2086
    "$tool" $1 <"$2" >"$3" 2>"$work/notes"
    status=$?
    answer=$(joined "$work/notes")
    [ "$status" -eq 1 ] || answer="status $status, $answer"
}

# Whether each line has the four columns of a listing, its place is the sum of the lengths before it,
# and all the lengths add up to the file's size.
tiles() {
    awk -v size="$2" '
        NF != 4 || $1 != sum || $2 > 31 || $3 < 2 || $4 !~ /^[r-][t-][x-]$/ { bad = 1 }
        { sum += $3 }
        END { exit bad || sum + 0 != size }' "$1"
}

# Whether a file lists without a note, and its lines tile it.
lists() {
    run list "$1" "$work/lines"
    if [ "$status" -ne 0 ] || [ -s "$work/notes" ]; then
        problem="list: $answer"
    elif ! tiles "$work/lines" "$(($(wc -c <"$1")))"; then
        problem="list: the lines do not tile the file"
    else
        return 0
    fi
    return 1
}

check_listing() {
    if lists "$1"; then
        passed=$((passed + 1))
    else
        fail "$2: $problem"
    fi
}

# What is wrong with `canon` of a file with this report, if anything: sets `problem`.
judge_canon() {
    run canon "$1" "$work/canon"
    if [ "$status" -ne 0 ] || [ -s "$work/notes" ]; then
        problem="canon of an accepted file: $answer"
        return
    fi
    lists "$work/canon" || {
        problem="canon, $problem"
        return
    }
    run check "$work/canon" "$work/report_again"
    if [ "$status" -ne 0 ]; then
        problem="check of what canon wrote: $answer"
    elif ! cmp -s "$2" "$work/report_again"; then
        problem="check of what canon wrote reports: $(joined "$work/report_again")"
    else
        run canon "$work/canon" "$work/canon_again"
        if [ "$status" -ne 0 ]; then
            problem="canon of what canon wrote: $answer"
        elif ! cmp -s "$work/canon" "$work/canon_again"; then
            problem="canon of what canon wrote has other bytes"
        fi
    fi
}

# What is wrong with `canon` of a file that `check` refused by this line.
judge_refusal() {
    run canon "$1" "$work/canon"
    if [ "$status" -ne 1 ] || [ "$answer" != "$2" ]; then
        problem="check: $2, but canon: $answer"
    elif [ -s "$work/report" ] || [ -s "$work/canon" ]; then
        problem="output was written beside a refusal"
    fi
}

check_canon() {
    problem=
    run check "$1" "$work/report"
    case $status in
        0) judge_canon "$1" "$work/report" ;;
        1) judge_refusal "$1" "$answer" ;;
        *) problem="check: $answer" ;;
    esac
    if [ -z "$problem" ]; then
        passed=$((passed + 1))
    else
        fail "$2: $problem"
    fi
}

# Runs the commands one after the other, each on what the one before wrote.
# Sets `answer`, or `status` to 2 where the program does not have a command.
run_commands() {
    cp "$1" "$work/in" && chmod u+w "$work/in" || exit 2
    rest=$2
    while [ -n "$rest" ]; do
        command=${rest%%|*}
        case $rest in
            *'|'*) rest=${rest#*|} ;;
            *) rest= ;;
        esac
        run "$command" "$work/in" "$work/out"
        [ "$status" -eq 0 ] || return
        mv "$work/out" "$work/in"
    done
    case $command in
        check | list) answer=$(joined "$work/in") ;;
        *) answer="$(($(wc -c <"$work/in"))) bytes" ;;
    esac
}

check_answer() {
    if [ ! -f "$folder/$1" ]; then
        fail "$1: no such file"
        return
    fi
    run_commands "$folder/$1" "$2"
    if [ "$answer" = "$3" ]; then
        passed=$((passed + 1))
    else
        fail "$1: $2: expected '$3', got '$answer'"
    fi
}

set +f
for file in "$folder"/*.iamf; do
    [ -f "$file" ] || continue
    name=$(basename "$file")
    check_listing "$file" "$name"
    check_canon "$file" "$name"
done
set -f

tab=$(printf '\t')
while IFS=$tab read -r file commands expected; do
    [ -n "$file" ] && check_answer "$file" "$commands" "$expected"
done <"$folder/EXPECTED.tsv"

echo "$passed passed, $failed failed"
[ "$failed" -eq 0 ]
