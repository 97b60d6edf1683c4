#!/usr/bin/env bash
# Builds target/bench/bench and runs it: our calls in crates/capi/out/libcapi.a beside the original Rust and Rust loops with unchecked indexing.
#     oracle/bench.sh [NAME..]          the ratios, of all tasks or of the named ones
#     oracle/bench.sh count [NAME..]    how many instructions one run of each side takes, by valgrind
# LOGOS_SRC names the original's sources (oracle/crates.sh).
set -eu
cd "$(dirname "$0")/.."
OUT=$PWD/target/bench
FLAGS=(-C opt-level=3)
. oracle/crates.sh
(cd crates/capi && rt lib) >"$OUT/lib.log" 2>&1
FLAGS+=(-C link-arg="$PWD/crates/capi/out/libcapi.a")
crate bin bench 2021 "-D warnings" oracle/src/bench.rs logos_codegen regex_automata regex_syntax proc_macro2

# instructions SIDE TASK FUNCTION: those of the function and all that it calls
instructions() {
    valgrind --tool=callgrind --callgrind-out-file=/dev/null --toggle-collect="$3" "$OUT/bench" once "$1" "$2" 2>&1 | sed -n 's/.*Collected : //p'
}

if [ "${1:-}" != count ]; then
    "$OUT/bench" time 9 "$@"
    exit
fi
shift
[ $# -gt 0 ] || set -- $("$OUT/bench" names)
for name in "$@"; do
    case $name in
        read-*) call=balthwyr_read_graph rust='bench::loops::read_graph*' ;;
        scan-*) call=balthwyr_scan_list rust='bench::loops::scan_list*' ;;
        planned-*) call=balthwyr_scan_planned rust='bench::planned::scan_planned*' ;;
        gain-*) call=balthwyr_scan_planned rust=balthwyr_scan_list ;;
        loops-*) call='bench::planned::scan_planned*' rust='bench::loops::scan_list*' ;;
        next-*) call=balthwyr_scan_next rust='bench::loops::scan_next*' ;;
        build-*) call=balthwyr_build rust='logos_codegen::graph::Graph::new*' ;;
    esac
    ours=$(instructions ours "$name" "$call")
    rust=$(instructions rust "$name" "$rust")
    echo "$name $ours $rust $(awk "BEGIN { printf \"%.3f\", $rust / $ours }")"
done
