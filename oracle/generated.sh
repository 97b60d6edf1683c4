#!/usr/bin/env bash
# Compiles the code that the original generates for random tables, runs it on texts, and holds each reading against the walk that
# oracle/src/generated.rs says the code takes. Then it counts the readings that differ from those of docs/RULES.md, by the rules departed from.
#     oracle/generated.sh SEED TABLES
set -eu
cd "$(dirname "$0")/.."
OUT=target/oracle
"$OUT/oracle" cases generated "$1" "$2" >"$OUT/generated.cases"
"$OUT/oracle" program <"$OUT/generated.cases" >"$OUT/generated.rs"
rustc --edition 2021 -o "$OUT/generated" "$OUT/generated.rs"
"$OUT/generated" >"$OUT/generated.found"
"$OUT/oracle" answers generated <"$OUT/generated.cases" >"$OUT/generated.expected"
sed 's/ #.*//' "$OUT/generated.expected" | cmp - "$OUT/generated.found"
echo "$(wc -l <"$OUT/generated.found") readings by generated code, as expected; different from docs/RULES.md:"
sed -n 's/.* # \([a-z-]*\) [^ ]* /\1: /p' "$OUT/generated.expected" | sort | uniq -c
