#!/usr/bin/env bash
# Measures `abc run` beside its peer on programs that go around one loop many times, over locals, calls, properties and
# elements of an array; on programs that load the heap, with elements, with properties of one object, and with names that are found ten
# classes up; and on the program of `gen --methods=10000`; then `gen` itself, which reads nothing. Prints what canon.sh does.
# Use: bench/run.sh [FOLDER]
set -eu
. "$(dirname "$0")/common.sh"
loops=(loop_locals loop_calls loop_properties loop_arrays)
loads=(load_elements load_properties load_names)
prepare "${loops[@]}" "${loads[@]}" generated
for kind in "${loops[@]}" "${loads[@]}" generated; do
    for name in "$kind" "${kind}_half"; do
        "$abc" asm <"$folder/$name.abcasm" >"$folder/$name.abc"
    done
done
# The text of an element's number takes room each time.
room="--fuel=4294967295 --text=16777216"
measure "run $room:run $room" "${loops[@]}"
measure "run $room --cells=16777216:run $room --cells=16777216" "${loads[@]}"
measure run generated
echo >"$folder/nothing.abc"
measure "gen --methods=10000:gen --methods=10000" nothing
