#!/usr/bin/env bash
# Measures `abc check` beside its peer on files that are verified: classes as a compiler writes them, many bodies, and one
# body each with much straight code, branches, handlers, deep classes, scopes and locals. Prints what canon.sh does.
# Use: bench/check.sh [FOLDER]
set -eu
. "$(dirname "$0")/common.sh"
kinds=(compiled tiny straight branches tries nested handlers deep scopes locals)
prepare "${kinds[@]}"
measure check "${kinds[@]}"
