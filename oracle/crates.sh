# Compiles the original Rust of logos-codegen over stand-ins to libraries below $OUT, with the flags $FLAGS; sourced from the root of the repository.
# LOGOS_SRC names the folder src/ of the crate logos-codegen 0.16.1, as it is published; it is linked to, never copied.
if [ ! -f "${LOGOS_SRC:-}/graph/mod.rs" ]; then
    echo "LOGOS_SRC must name the folder src/ of logos-codegen 0.16.1, the original in Rust" >&2
    exit 1
fi
LOGOS_SRC=$(realpath "$LOGOS_SRC")
mkdir -p "$OUT/codegen/graph" "$OUT/codegen/generator"

# quote and proc-macro2 come from Debian: installed, or unpacked below target/ without installing
registry=/usr/share/cargo/registry
if ! ls -d "$registry"/quote-1.* "$registry"/proc-macro2-1.* "$registry"/unicode-ident-1.* >/dev/null 2>&1; then
    debian=$PWD/target/oracle/debian
    registry=$debian/usr/share/cargo/registry
    if [ ! -d "$registry" ]; then
        mkdir -p "$debian"
        (cd "$debian" && apt-get -q download librust-quote-dev librust-proc-macro2-dev librust-unicode-ident-dev &&
            for package in *.deb; do dpkg-deb -x "$package" .; done)
    fi
fi

# crate TYPE NAME EDITION LINTS FILE USED-CRATES..
crate() {
    local type=$1 name=$2 edition=$3 lints=$4 file=$5
    shift 5
    local used=()
    for one in "$@"; do used+=(--extern "$one=$OUT/lib$one.rlib"); done
    rustc --crate-type "$type" --crate-name "$name" --edition "$edition" $lints "${FLAGS[@]}" -L "$OUT" --out-dir "$OUT" "${used[@]}" "$file"
}

crate lib unicode_ident 2018 "--cap-lints allow" "$(ls -d "$registry"/unicode-ident-1.*)/src/lib.rs"
crate lib proc_macro2 2018 "--cap-lints allow" "$(ls -d "$registry"/proc-macro2-1.*)/src/lib.rs" unicode_ident
crate lib quote 2018 "--cap-lints allow" "$(ls -d "$registry"/quote-1.*)/src/lib.rs" proc_macro2

crate lib syn 2021 "-D warnings" oracle/standins/syn.rs proc_macro2
crate lib fnv 2021 "-D warnings" oracle/standins/fnv.rs
crate lib regex_automata 2021 "-D warnings" oracle/standins/regex_automata.rs
crate lib regex_syntax 2021 "-D warnings" oracle/standins/regex_syntax.rs

for file in graph/mod.rs graph/dfa_util.rs pattern.rs leaf.rs generator/mod.rs generator/fork.rs generator/fast_loop.rs; do
    ln -sfn "$LOGOS_SRC/$file" "$OUT/codegen/$file"
done
for file in lib.rs parser.rs util.rs views.rs; do ln -sfn "$PWD/oracle/codegen/$file" "$OUT/codegen/$file"; done
ln -sfn "$PWD/oracle/codegen/export.rs" "$OUT/codegen/graph/export.rs"
ln -sfn "$PWD/oracle/codegen/generator_leaf.rs" "$OUT/codegen/generator/leaf.rs"
crate lib logos_codegen 2021 "-D warnings" "$OUT/codegen/lib.rs" regex_automata regex_syntax proc_macro2 quote syn fnv
