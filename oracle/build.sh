#!/usr/bin/env bash
# Builds target/oracle/oracle: the original Rust of logos-codegen over stand-ins, and the driver that asks it. LOGOS_SRC names the original's sources
# (oracle/crates.sh).
set -eu
cd "$(dirname "$0")/.."
OUT=$PWD/target/oracle

# arithmetic that passes its type stops the program
FLAGS=(-C opt-level=2 -C debug-assertions=on -C overflow-checks=on)
. oracle/crates.sh

crate bin oracle 2021 "-D warnings" oracle/src/main.rs logos_codegen regex_automata regex_syntax proc_macro2

# the C side of the case lines reads and writes them as the oracle does
cc -std=c11 -O2 -Wall -Wextra -Werror -o "$OUT/echo" oracle/port/echo.c oracle/port/lines.c
for name in classes priorities builds display readings plans angles; do
    case $name in angles) cases=(python3 oracle/paper) ;; *) cases=("$OUT/oracle") ;; esac
    "${cases[@]}" cases "$name" 1 200 >"$OUT/echo.cases"
    "$OUT/echo" "$name" <"$OUT/echo.cases" | cmp - "$OUT/echo.cases"
done
