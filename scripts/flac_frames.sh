#!/bin/sh
# Wraps frames of a stock FLAC encoder into sequences and has the program check them.
#
# Usage: scripts/flac_frames.sh [FOLDER]
# Streams of several sounds are encoded by `flac` at -0 to -8, with orders up to 32, up to 256 partitions, block sizes
# from 100 to 4096, 16, 24 and 32 bits, one channel and two. Each stream's whole frames become one sequence, which `check`
# has to accept with the right numbers of units and samples, and, with the last byte of its last frame changed, has to
# refuse at that frame with code 44.
# With FOLDER, frames.bin is written there too: each frame with its shape and the samples that the encoder was given, for
# a program that decodes and compares (scripts/flac_frames.py says how it is laid out).
# The program is $IAMF_TOOL, or the launcher. Without `flac` or Python 3 nothing is run. The last line is
# `N passed, M failed`; the status is 0 only where none failed, and 2 for a wrong call.

top=$(cd "$(dirname "$0")/.." && pwd) || exit 2
if [ $# -gt 1 ]; then
    echo "usage: scripts/flac_frames.sh [FOLDER]" >&2
    exit 2
fi
for needed in flac python3; do
    if ! command -v "$needed" >/dev/null 2>&1; then
        echo "skipped: there is no $needed here"
        echo "0 passed, 0 failed"
        exit 0
    fi
done
exec python3 "$top/scripts/flac_frames.py" "${IAMF_TOOL:-$top/iamf_tool}" "$@"
