#!/usr/bin/env bash
# Proves and builds the program `example`, the one that README.md shows, and prints what it writes.
#
#     tools/run_example.sh
#
# Needs what tools/run_catalogue.sh needs.
set -eu
. "$(dirname "$0")/program.sh"

build example
run example "$root"
