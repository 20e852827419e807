#!/bin/sh
# Builds the proved library for C and Rust, target/staticlib/libexports.a. Needs the Rattle kit (rt); no network.
set -eu
root=$(cd "$(dirname "$0")/.." && pwd)
(cd "$root/crates/exports_c" && rt lib)
mkdir -p "$root/target/staticlib"
cp "$root/crates/exports_c/out/libexports_c.a" "$root/target/staticlib/libexports.a"
