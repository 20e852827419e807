#!/bin/bash
while true; do
  for p in $(pgrep -f "rattle (check|build)|python3|cargo|rustc|bin/clang|rattle-link"); do
    c=$(tr '\0' ' ' < /proc/$p/cmdline 2>/dev/null); d=$(readlink /proc/$p/cwd 2>/dev/null)
    n=""
    case "$c $d" in
      *mf-bit*) n=-9;;
      *mf-*|*must-fail*) n=-5;;
      */tmp/h/tests*|*/tmp/h/compare*|*/tmp/h/docs*|*/tmp/h/decode*|*cross.py*) n=17;;
      */tmp/h/arrow*|*/tmp/h/ready*) n=15;;
      */tmp/h/lead*|*/tmp/h/gate*) n=-15;;
      */tmp/h/machine*|*/tmp/h/typed*) n=12;;
    esac
    if [ -n "$n" ]; then renice -n $n -p $p >/dev/null 2>&1; echo $n > /proc/$p/autogroup 2>/dev/null; fi
  done
  sleep 3
done
