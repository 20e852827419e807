#!/bin/sh
# Puts the original together in target/compare/original/src: the 22 files of docs/src, unchanged,
# and our stand-ins (original/missing) for the files that are not there. Copies, not links, so
# that no tool can touch docs/src; sums are checked on the copies, which are what is compiled.
set -eu
here=$(cd "$(dirname "$0")" && pwd)
root=$(dirname "$here")
tree=$root/target/compare/original
(cd "$root/docs/src" && sha256sum --quiet -c SHA256SUMS)
(cd "$here/original/missing" && find . -name '*.rs') | while read -r file; do
  if [ -e "$root/docs/src/src/$file" ]; then
    echo "assemble: $file stands in docs/src, so nothing may stand in for it" >&2
    exit 1
  fi
done
mkdir -p "$tree/src"
cp -Rp "$root/docs/src/src/." "$tree/src/"
cp -Rp "$here/original/missing/." "$tree/src/"
(cd "$tree" && sha256sum --quiet -c "$root/docs/src/SHA256SUMS")
echo "original: $(wc -l < "$root/docs/src/SHA256SUMS") files unchanged, $(find "$here/original/missing" -name '*.rs' | wc -l) stand-ins"
