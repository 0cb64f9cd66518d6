#!/usr/bin/env bash
# Measures `abc canon` beside its peer on the files of files.py: some runs each, in turn; the outputs have to be equal.
# Prints best times, ratios, bytes a second, peak memory, how times grow with the size, and the peak on small files that
# claim huge tables. Use: bench/canon.sh [FOLDER [KIND..]]; without kinds, all of them
set -eu
. "$(dirname "$0")/common.sh"
shift || true
[ $# -gt 0 ] || set -- ints strings names definitions bodies code compiled
prepare "$@"
measure canon "$@" --refused "$folder"/huge/*.abc
