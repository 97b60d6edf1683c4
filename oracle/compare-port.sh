#!/usr/bin/env bash
# Compares the library with the original: builds libcapi.a, the oracle and the program that answers case lines by the library, and gives both COUNT
# random cases of every name, from SEED on. Angles, which the original has not, are compared with oracle/paper. Then the images of examples/ that have a
# sample: what examples/build.c prints of each against its .printed, the scan of its sample against its .scan. LOGOS_SRC names the original's sources
# (oracle/crates.sh).
#     compare-port.sh [SEED] [COUNT]
set -eu
cd "$(dirname "$0")/.."
SEED=${1:-1} COUNT=${2:-2000}
OUT=target/oracle
CC=(cc -std=c11 -O2 -Wall -Wextra -Werror -Iinclude)
oracle/build.sh
(cd crates/capi && rt lib) >/dev/null
"${CC[@]}" -o $OUT/port oracle/port/{port,builds,readings,classes,plans,angles,lent,lines}.c crates/capi/out/libcapi.a
"${CC[@]}" -o $OUT/build examples/build.c crates/capi/out/libcapi.a
for name in builds display readings classes priorities plans angles; do
    oracle/compare.py $name "$SEED" "$COUNT" $OUT/port
done
for sample in examples/*.sample; do
    name=${sample%.sample}
    $OUT/build "$name.image" | cmp - "$name.printed"
    oracle/scan-sample.py "$name" $OUT/port | cmp - "$name.scan"
    echo "$name: text and scan alike"
done
