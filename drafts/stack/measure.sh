#!/bin/bash
# measure.sh ROUNDS OUT TREES...: the three benchmarks of each tree, alternating, on a quiet machine
r=$1; o=$2; shift 2; mkdir -p $o
touch /tmp/quiet; sleep 1
stop() { pgrep -f '/opt/rattle|rattle-|cargo|/tmp/bin/rt|rustc|valgrind|\./t |plain_replay|rtep_replay' | grep -v $$ | xargs -r kill -STOP 2>/dev/null; }
stop
for k in $(seq 1 $r); do for t in "$@"; do
  n=$(basename $t)
  stop
  for b in bench station_bench ring_bench; do (cd $t/tests/rust && ../../target/bench/cargo/release/$b) > $o/$n.$b.$k 2>&1; done
  uptime | sed 's/.*load/load/' >> $o/load
done; done
rm /tmp/quiet
pgrep -f '/opt/rattle|rattle-|cargo|/tmp/bin/rt|rustc|valgrind|\./t |plain_replay|rtep_replay' | xargs -r kill -CONT
