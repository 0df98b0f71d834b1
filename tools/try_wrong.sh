#!/usr/bin/env bash
# Tries the wrong programs of the crates, those of must-fail/ and those of wrong/: tools/wrong/try_wrong.py says how, and `--help` prints it.
exec python3 -B "$(dirname "$0")/wrong/try_wrong.py" "$@"
