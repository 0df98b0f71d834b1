#!/usr/bin/env bash
# Makes the list of cases that crates/worked_lines replays, and what it must print.
#
#     tools/make_cases.sh RUST_SOURCE_FOLDER
#
# RUST_SOURCE_FOLDER holds trie-rs 0.4.2 as published, its src/lib.rs below it. It is only read, and nothing of it is kept here.
# Needs rustc and python3, and no network. Two runs write the same bytes.
#
# Section 1, data/rust_cases, is answered by the Rust itself. A copy of its source is compiled in a temporary folder,
# after these lines are dropped, which lie outside the map half or need files that are not in the source given:
#     src/lib.rs       #![doc = include_str!("../README.md")], mod trie; and pub use trie::{Trie, TrieBuilder};
#     src/iter/mod.rs  mod keys; and pub use keys::{Keys, KeysExt};
# Where src/internal_data_structure.rs is not among the files, it is made: the one line pub mod naive_trie; that lib.rs asks for.
# The crate louds-rs, which it needs, is tools/oracle/louds_rs.rs: a stand-in that we wrote from the scope document's rule.
# tools/oracle/main.rs makes up the catalogues and the queries, asks the Rust and writes case and answer down.
#
# Section 2, data/document_cases, rests on the scope document alone: tools/oracle/document.py has a plain model of pools, images and searches,
# for what the Rust does not have: damaged pools and images, capacity, numbered refusals, places and cursors of any number.
#
# A case is a line: a letter, a space, a number in 8 hexadecimal digits, and, where there are bytes, a space and their hexadecimal digits.
# A line that begins with # is written out as it stands. tools/oracle/README.md has the letters and how their answers are written.
set -eu

if [ $# -ne 1 ] || [ ! -f "$1/src/lib.rs" ]; then
    echo "usage: tools/make_cases.sh RUST_SOURCE_FOLDER (with src/lib.rs below it)" >&2
    exit 2
fi
source=$1
tools=$(cd "$(dirname "$0")" && pwd)
crate=$(cd "$tools/.." && pwd)/crates/worked_lines
work=$(mktemp -d)
trap 'rm -rf "$work"' EXIT

cp -r "$source/src" "$work/src"
chmod -R u+w "$work/src"

# drop FILE LINE: removes the line, which must stand in the file exactly once
drop() {
    if [ "$(grep -cxF -- "$2" "$work/$1")" -ne 1 ]; then
        echo "make_cases: $1 does not have the line: $2" >&2
        exit 1
    fi
    grep -vxF -- "$2" "$work/$1" > "$work/kept"
    cp "$work/kept" "$work/$1"
}
drop src/lib.rs '#![doc = include_str!("../README.md")]'
drop src/lib.rs 'mod trie;'
drop src/lib.rs 'pub use trie::{Trie, TrieBuilder};'
drop src/iter/mod.rs 'mod keys;'
drop src/iter/mod.rs 'pub use keys::{Keys, KeysExt};'
if [ ! -f "$work/src/internal_data_structure.rs" ]; then
    echo 'pub mod naive_trie;' > "$work/src/internal_data_structure.rs"
fi

rust() {
    rustc --edition 2021 -O --out-dir "$work" -L "$work" "$@"
}
rust --crate-type rlib --crate-name louds_rs "$tools/oracle/louds_rs.rs"
rust --crate-type rlib --crate-name trie_rs --cap-lints allow --extern louds_rs "$work/src/lib.rs"
rust --crate-type bin --crate-name make_cases --extern louds_rs --extern trie_rs "$tools/oracle/main.rs"

mkdir -p "$crate/data"
"$work/make_cases" "$crate/data/rust_cases" "$work/rust_answers"
python3 "$tools/oracle/document.py" "$crate/data/document_cases" "$work/document_answers"
cat "$work/rust_answers" "$work/document_answers" > "$crate/stdout"

echo "rust_cases: $(grep -cv '^#' "$crate/data/rust_cases") cases; document_cases: $(grep -cv '^#' "$crate/data/document_cases") cases"
