#!/usr/bin/env bash
# bench/canon.sh on the files of method bodies alone: many small bodies, and one with 8 MiB of code.
# Use: bench/code.sh [FOLDER]
set -eu
exec "$(dirname "$0")/canon.sh" "${1:-/tmp/abc-bench}" bodies code
