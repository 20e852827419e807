#!/bin/sh
# mf.sh REPO CRATE: tries the must-fail edits of one crate alone, in a copy of the repository; prints one line per edit and the first error of each
set -e
R=$1; C=$2; D=/tmp/h/mf-$C-$$
rm -rf $D; cp -a $R $D; rm -rf $D/.git
cd $D; for c in crates/*; do [ "$c" = "crates/$C" ] || rm -rf $c/must-fail; done
RT_JOBS=${RT_JOBS:-1} nice -n 10 rt must-fail $C 2>&1 | grep -v "unchanged since" | cut -c1-200 | tail -60
for f in target/must-fail/$C/*/.log; do echo "== $(basename $(dirname $f))"; grep -m1 ': error' $f | sed "s|$D/target/must-fail/$C/||" | cut -c1-300; done
rm -rf $D
