#!/bin/sh
# Compares the proved library with the original and prints the counts: compare/run.sh [ARGS]
#   --seed N         another seed (1)
#   --programs N     how many programs in all (250000)
#   --short-every N  only every N-th of the programs of two bytes (1)
#   --trace          keeps the dossier at hand, so that a crash leaves it behind
# Status 0 means that nothing differs. A dossier on which something differs is kept in
# target/compare/differences. Needs the Rattle kit (rt) and cargo; no network.
set -eu
here=$(cd "$(dirname "$0")" && pwd)
if [ -n "${DREVALOCI_LIB:-}" ]; then
  DREVALOCI_LIB=$(cd "$DREVALOCI_LIB" && pwd)
  export DREVALOCI_LIB
fi
"$here/prepare.sh"
cd "$here"
cargo test --release --quiet --package compare
echo "compare $*"
cargo run --release --quiet --package compare --bin compare -- --saved ../target/compare/differences "$@"
