#!/bin/sh
# Counts the instructions of the machine's lines, library and original, in thousands: compare/count.sh [LINE ...]
# Needs the Rattle kit (rt), cargo, a C compiler, python3, nm and qemu-user (7.2 or later); no network. Other work on the machine
# does not change the counts. NM names an nm for x86-64 where nm is none.
set -eu
here=$(cd "$(dirname "$0")" && pwd)
if [ -n "${DREVALOCI_LIB:-}" ]; then
  DREVALOCI_LIB=$(cd "$DREVALOCI_LIB" && pwd)
  export DREVALOCI_LIB
fi
"$here/prepare.sh"
cd "$here"
mkdir -p ../target/count
cc -O2 -Wall -Wextra -Werror -shared -fPIC count/count.c -o ../target/count/count.so
cargo build --release --quiet --package compare --bin bench
bench=../target/cargo/${CARGO_BUILD_TARGET:+$CARGO_BUILD_TARGET/}release/bench
python3 count/count.py qemu-x86_64 ../target/count/count.so "$bench" "${NM:-nm}" "$@"
