#!/usr/bin/env bash
# Measures `abc tidy` beside its peer on the files of canon.sh, on many bodies and on long chains of type names, and tells its
# times by those of `abc canon` on the same file too (beside). Prints what canon.sh does. Use: bench/tidy.sh [FOLDER]
set -eu
. "$(dirname "$0")/common.sh"
kinds=(ints strings names definitions compiled tiny forward backward)
refused=(bodies code cycle)
prepare "${kinds[@]}" "${refused[@]}"
for example in "$here"/../examples/*.abc; do
    # Tidying a tidied file changes nothing, and the peer says the same.
    cmp <("$abc" tidy <"$example") <("$abc" tidy <"$example" | "$abc" tidy)
    cmp <("$abc" tidy <"$example") <("$peer" tidy <"$example")
done
measure tidy "${kinds[@]}" --beside "$abc canon"
measure tidy "${refused[@]}" --beside "$abc canon" --status 1
