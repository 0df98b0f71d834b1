#!/usr/bin/env bash
# Proves and builds the program `catalogue_program`, runs it on a file and prints what it writes: the listing, or why there is none.
#
#     tools/run_catalogue.sh [FILE]
#
# FILE is the sample crates/catalogue_program/data/sample.tsv where none is given. The program reads a copy of it in a temporary folder.
# Needs `rt` on the path. Works on x86-64.
set -eu
. "$(dirname "$0")/program.sh"

file=${1:-$root/crates/catalogue_program/data/sample.tsv}
if [ $# -gt 1 ] || [ ! -f "$file" ]; then
    echo "usage: tools/run_catalogue.sh [FILE]" >&2
    exit 2
fi
folder=$(mktemp -d)
trap 'rm -rf "$folder"' EXIT
cp "$file" "$folder/catalogue.tsv"
build catalogue_program
run catalogue_program "$folder"
