#!/bin/sh
# sample.sh: writes the sample anew: sample.calls, the records, and sample.answers, what the Rust prints for them; and the copies of both
# that the gate gives to the program `probe`.
set -eu
cd "$(dirname "$0")"
cargo build --release --offline --quiet
oracle=${CARGO_TARGET_DIR:-target}/release/oracle
"$oracle" sample >sample.calls
"$oracle" <sample.calls >sample.answers
cp sample.calls ../crates/probe/stdin
cp sample.answers ../crates/probe/stdout
