#!/bin/sh
# Plays sequences and compares every sample with the exact value of the mix.
#
# Usage: scripts/played.sh [FOLDER]
# Of each bare file (*.iamf) in the folder that `check` accepts, and of short sequences that are made at random, each mix is
# played for each target. Where the target suits the mix,
# - the WAV file has the right head and length, and each sample is a whole number within 9/16 of the exact value, clipped to the
#   depth; a small program in Python, which shares no code with the program, works it out in fractions;
# - of a file in the folder soxi and mediainfo read the right channels, mask, rate, depth and length, where they are there;
# - of a file of one layer without gains and trims the samples are those that ffmpeg decodes, where it reads IAMF.
# Else the answer is the right `unplayable CODE`. FLAC frames are decoded by `flac`; without it such files are left out.
# The program is $IAMF_TOOL, or the one that the launcher builds. Without Python 3 nothing is run. The last line is
# `N passed, M failed`; the status is 0 only where none failed, and 2 for a wrong call.

top=$(cd "$(dirname "$0")/.." && pwd) || exit 2
if [ $# -gt 1 ] || { [ $# -eq 1 ] && [ ! -d "$1" ]; }; then
    echo "usage: scripts/played.sh [FOLDER]" >&2
    exit 2
fi
if ! command -v python3 >/dev/null 2>&1; then
    echo "skipped: there is no python3 here"
    echo "0 passed, 0 failed"
    exit 0
fi
tool=${IAMF_TOOL:-$top/crates/iamf_tool/out/iamf_tool}
[ -x "$tool" ] || "$top/iamf_tool" list </dev/null || exit 2
exec python3 -B "$top/scripts/played.py" "$tool" "$@"
