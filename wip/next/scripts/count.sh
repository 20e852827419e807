#!/bin/sh
# count.sh REPO NAME : build unproved lib, relink bench, count natural and decode lines
set -eu
repo=$1; out=/tmp/cnt/$2
sh /tmp/cnt/ulib.sh $repo $out 2>&1 | tail -5
export CARGO_TARGET_DIR=/tmp/cnt/cargo DREVALOCI_LIB=$out
(cd /work/copies/table/compare && cargo build --release --quiet --package compare --bin bench)
cp /tmp/cnt/cargo/release/bench /tmp/cnt/bench-$2
