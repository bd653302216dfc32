#!/bin/sh
# Steps of a long loop, against a plain interpreter of the same tree in Rust: a ratio in one run. And the same loop alone and
# in a function that fills the largest file: a step must not cost more for what stands around it.
#
#   bench/run.sh
set -eu
here=$(cd "$(dirname "$0")" && pwd)
root=$(dirname "$here")
work=$(mktemp -d)
rustc --edition 2021 -C opt-level=3 -C panic=abort -o "$work/run" "$here/run.rs"
(cd "$root/crates/measure_run" && rt run -- data/one_return.fn 0 0 >/dev/null 2>&1)
"$work/run" "$root/crates/measure_run/out/measure_run" "$work"
rm -rf "$work"
