#!/usr/bin/env bash
# Measures the linking part of `abc check` beside its peer: on files that link, and on files of canon.sh that break a rule.
# Prints what canon.sh does. Use: bench/link.sh [FOLDER]
set -eu
. "$(dirname "$0")/common.sh"
large=(chain interfaces traits one_text)
refused=(definitions bodies code)
prepare "${large[@]}" "${refused[@]}" compiled tiny
measure check "${large[@]}" compiled tiny
measure check "${refused[@]}" --status 1
