#!/bin/sh
# Builds the proved library, the C example and the Rust bindings with their tests and example, and
# runs them. Needs the Rattle kit (rt), a C compiler and cargo; no network.
# DREVALOCI_LIB names a folder that holds libexports.a already; then rt is not called. The library is for x86-64:
# on another processor CC names a compiler for it, EMULATOR what runs it, and cargo's own variables do the same for Rust.
set -eu
here=$(cd "$(dirname "$0")" && pwd)
root=$(dirname "$here")
if [ -n "${DREVALOCI_LIB:-}" ]; then
  DREVALOCI_LIB=$(cd "$DREVALOCI_LIB" && pwd)
else
  "$here/library.sh"
  DREVALOCI_LIB=$root/target/staticlib
fi
export DREVALOCI_LIB
cd "$root"
mkdir -p target/bindings
"${CC:-cc}" -std=c99 -Wall -Wextra -Werror -O2 bindings/examples/vault.c "$DREVALOCI_LIB/libexports.a" -o target/bindings/vault-c
in_c() {
  ${EMULATOR:-} target/bindings/vault-c "$@"
}
in_rust() {
  (cd bindings && cargo run --manifest-path rust/Cargo.toml --release --quiet --example vault -- "$@")
}
expect() {
  echo "$1: $2"
  [ "$2" = "$3" ] || { echo "$1: expected $3" >&2; exit 1; }
}
# The exit status of a command whose line was looked at before.
status() {
  "$@" > /dev/null 2>&1 && echo 0 || echo $?
}
(cd bindings && cargo test --manifest-path rust/Cargo.toml --release --quiet)
expect "C" "$(in_c)" "value 1 0"
expect "Rust" "$(in_rust | tail -n 1)" "value 1 0"
# A dossier of no bytes has a wrong size.
expect "C, an empty dossier" "$(in_c /dev/null || true)" "refused 1 0"
expect "Rust, an empty dossier" "$(in_rust /dev/null || true)" "refused 1 0"
# Exit status: 0 for a value, 1 for a refusal, 2 where nothing was run.
for run in in_c in_rust; do
  expect "$run, status of a value" "$(status $run)" 0
  expect "$run, status of a refusal" "$(status $run /dev/null)" 1
  expect "$run, status without a file" "$(status $run /nowhere)" 2
  expect "$run, status of a folder" "$(status $run .)" 2
done
