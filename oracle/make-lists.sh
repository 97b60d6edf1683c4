#!/usr/bin/env bash
# Builds the oracle, holds its texts and scans of the images of examples/ against the ones beside them, and writes the stored lists of its answers
# to the programs that replay them. The seeds are fixed: the same bytes come out every time. LOGOS_SRC names the original's sources (oracle/crates.sh).
set -eu
cd "$(dirname "$0")/.."
oracle/build.sh
for sample in examples/*.sample; do
    name=${sample%.sample}
    target/oracle/oracle print <"$name.image" | cmp - "$name.printed"
    target/oracle/oracle scan "$name.image" <"$sample" | cmp - "$name.scan"
done
for name in classes priorities builds display readings plans; do
    list=crates/replay_$name/stdin
    target/oracle/oracle list "$name" examples/{encoder-lines,json,missing-angle-tie}.image >"$list"
    ls -l "$list"
done
