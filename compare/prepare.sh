#!/bin/sh
# What run.sh and bench.sh need first: the original put together, its sums checked, and the proved
# library. DREVALOCI_LIB names a folder that holds libexports.a already; then rt is not called.
set -eu
here=$(cd "$(dirname "$0")" && pwd)
"$here/assemble.sh"
if [ -z "${DREVALOCI_LIB:-}" ]; then
  "$(dirname "$here")/bindings/library.sh"
fi
