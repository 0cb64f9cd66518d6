#!/usr/bin/env bash
# Measures `abc dis` beside its peer on the files of canon.sh and on many bodies, and `abc asm` on their listings, which the
# peer makes, and on texts with many and with long tokens. Prints what canon.sh does. Use: bench/text.sh [FOLDER]
set -eu
. "$(dirname "$0")/common.sh"
kinds=(ints strings names definitions bodies code compiled tiny)
texts=(labels renewed long comment)
prepare "${kinds[@]}" "${texts[@]}"
for kind in "${kinds[@]}"; do
    for file in "$folder/$kind" "$folder/${kind}_half"; do
        [ -e "$file.abcasm" ] || { "$peer" dis <"$file.abc" >"$file.part" && mv "$file.part" "$file.abcasm"; }
    done
done
measure dis "${kinds[@]}"
measure asm "${kinds[@]}" "${texts[@]}" --ending .abcasm
