#!/bin/sh
# Measures the proved library beside the original, and the stack that calls take: compare/bench.sh [ARGS]
#   --quick                       fewer and shorter batches
#   --only naturals|decode|machine
# Needs the Rattle kit (rt) and cargo; no network. Nothing else should run on the machine.
set -eu
here=$(cd "$(dirname "$0")" && pwd)
if [ -n "${DREVALOCI_LIB:-}" ]; then
  DREVALOCI_LIB=$(cd "$DREVALOCI_LIB" && pwd)
  export DREVALOCI_LIB
fi
"$here/prepare.sh"
cd "$here"
rustc --version
grep -m 1 "model name" /proc/cpuinfo || true
cargo run --release --quiet --package compare --bin bench -- "$@"
echo
cargo run --release --quiet --package compare --bin stack
