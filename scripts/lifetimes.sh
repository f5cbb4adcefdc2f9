#!/bin/sh
# Shows that a program which keeps a view after its buffer was dropped does not compile.
#
# The program below is tried twice, in a copy of the repository: once with its buffers dropped too early,
# which the compiler has to refuse by a borrow error at each of them and by nothing else, and once with
# them dropped in time, which has to compile and run. So a refusal for another cause is not taken for it.
# Nothing is proved here. The last line is `N passed, M failed`.

top=$(cd "$(dirname "$0")/.." && pwd) || exit 2
work=$(mktemp -d) || exit 2
trap 'rm -rf "$work"' EXIT
trap 'exit 130' INT TERM

passed=0
failed=0

copy_repository() {
    mkdir "$work/crates" || return
    [ ! -f "$top/HANDLES" ] || cp "$top/HANDLES" "$work" || return
    cp "$top/crates.txt" "$work" || return
    for crate in "$top"/crates/*/; do
        name=$(basename "$crate")
        mkdir "$work/crates/$name" || return
        for part in src specs proofs; do
            [ ! -d "$crate$part" ] || cp -R "$crate$part" "$work/crates/$name" || return
        done
    done
    echo 'misuse: iamf_bits iamf_sequence obu_header' >>"$work/crates.txt" && mkdir -p "$work/crates/misuse/src"
}

program() {
    cat <<'END'
//! Views, and the buffers that they see.
#![tactic(auto)]

use iamf_bits::View;
use iamf_sequence::decode;
use obu_header::read_obu;
use std::alloc::{AllocError, Global};
use std::process::ExitCode;

fn left_of_view(alloc: Global) -> Result<usize, AllocError> {
    let seen_by_view = Vec::from_array(alloc, [0xc0u8, 0])?;
    let left = {
        let view = View::new(&seen_by_view, 0, 2);
        drop(seen_by_view); // too early
        view.left()
    };
    drop(seen_by_view); // in time
    Ok(left)
}

fn payload_of_obu(alloc: Global) -> Result<usize, AllocError> {
    let seen_by_obu = Vec::from_array(alloc, [0xc0u8, 0])?;
    let length = {
        let read = read_obu(&seen_by_obu, 0);
        drop(seen_by_obu); // too early
        match read {
            Ok(obu) => obu.payload.len(),
            Err(_) => 1,
        }
    };
    drop(seen_by_obu); // in time
    Ok(length)
}

// The bytes are no sequence, so 0 is answered.
fn count_of_sequence(alloc: Global) -> Result<usize, AllocError> {
    let seen_by_sequence = Vec::from_array(alloc, [0xc0u8, 0])?;
    let count = {
        let read = decode(alloc, &seen_by_sequence);
        drop(seen_by_sequence); // too early
        match read {
            Ok(sequence) => sequence.count(),
            Err(_) => 0,
        }
    };
    drop(seen_by_sequence); // in time
    Ok(count)
}

fn main(rt: HostRuntime) -> ExitCode {
    let view = left_of_view(rt.alloc());
    let obu = payload_of_obu(rt.alloc());
    match (view, obu, count_of_sequence(rt.alloc())) {
        (Ok(2), Ok(0), Ok(0)) => ExitCode::from(0),
        _ => ExitCode::from(1),
    }
}
END
}

# Tries the program without the lines that end with the words given.
try_without() {
    program | sed "\|// $1\$|d" >"$work/crates/misuse/src/main.rt"
    (cd "$work/crates/misuse" && rt try) >"$work/log" 2>&1 </dev/null
}

judge() {
    if [ "$2" -eq 0 ]; then
        passed=$((passed + 1))
        echo "passed: $1"
    else
        failed=$((failed + 1))
        echo "failed: $1; the compiler wrote:"
        sed 's/^/    /' "$work/log"
    fi
}

# Whether a borrow error (E0597: it does not live long enough; E0505: it is moved while borrowed) names the buffer.
names_borrow_error() {
    grep -E 'error\[borrow-e0(597|505)\]' "$work/log" | grep -qF "\`$1\`"
}

copy_repository || exit 2

try_without 'too early'
judge "views whose buffers live on are accepted" $?

try_without 'in time'
refused=$?
[ "$refused" -ne 0 ] && [ "$(grep -c 'error' "$work/log")" -eq 3 ] && names_borrow_error seen_by_view
judge "a View that outlives its buffer is refused" $?
[ "$refused" -ne 0 ] && [ "$(grep -c 'error' "$work/log")" -eq 3 ] && names_borrow_error seen_by_obu
judge "an ObuView that outlives its buffer is refused" $?
[ "$refused" -ne 0 ] && [ "$(grep -c 'error' "$work/log")" -eq 3 ] && names_borrow_error seen_by_sequence
judge "a Sequence that outlives its buffer is refused" $?

echo "$passed passed, $failed failed"
[ "$failed" -eq 0 ]
