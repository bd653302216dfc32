#!/bin/sh
# Load and write of the largest file, against the reader and writer that the original was compared with: a ratio in one run.
#
#   bench/load_write.sh BENCH ORIGINALS
#
# BENCH is the folder of the original's test bench (its build.sh, own/ and standins/), ORIGINALS that of its sources.
set -eu
here=$(cd "$(dirname "$0")" && pwd)
root=$(dirname "$here")
work=$(mktemp -d)
cp -R "$1/." "$work/"
chmod -R u+w "$work"
(cd "$work" && ORIGINALS=$2 ./build.sh >/dev/null)
cp "$here/load_write.rs" "$work/target/tree/load_write.rs"
printf '[[bin]]\nname = "load_write"\npath = "target/tree/load_write.rs"\n' >>"$work/Cargo.toml"
sed -i 's/^opt-level = .*/opt-level = 3/; s/^debug-assertions = .*/debug-assertions = false/; s/^overflow-checks = .*/overflow-checks = false/' "$work/Cargo.toml"
(cd "$work" && cargo build --release --offline --quiet --bin load_write)
(cd "$root/crates/measure" && rt run -- load data/one_return.fn 0 >/dev/null 2>&1)
python3 "$root/tests/edges.py" | awk 'NF == 16384' | head -n 1 | python3 -c "import sys, struct; w = [int(x) for x in sys.stdin.read().split()]; sys.stdout.buffer.write(struct.pack('<%dI' % len(w), *w))" >"$work/largest"
"$work/target/release/load_write" "$work/largest" 200 "$root/crates/measure/out/measure"
rm -rf "$work"
