#!/usr/bin/env bash
# Tries the interface to C, once `rt ci` has passed: builds the static library of crates/abc_c and the program of examples/calls.c over it, and
# compares what it writes on examples/counter.abc with what is wanted, and the first statuses of a few other inputs. Use: tools/try_c.sh [FOLDER]
set -eu
here=$(cd "$(dirname "${BASH_SOURCE[0]}")" && pwd)
folder=${1:-/tmp/abc-c}
mkdir -p "$folder"
(cd "$here/../crates/abc_c" && rt lib >"$folder/abc_c.log" 2>&1) || { tail -3 "$folder/abc_c.log"; exit 1; }
kit=$(dirname "$(dirname "$(readlink -f "$(command -v rt)")")")
[ -f "$kit/c/liblibc_c.a" ] || kit=$(dirname "$(rt doc)")
[ -f "$kit/c/liblibc_c.a" ] || kit=$(dirname "$kit")
gcc -std=c11 -Wall -Wextra -Werror -O2 "$here/../examples/calls.c" "$here/../crates/abc_c/out/libabc_c.a" "$kit/c/libos_c.a" "$kit/c/liblibc_c.a" -lm -o "$folder/calls"

tries=0
# The words from the third on are calls on the file $2; $1 is what the program is to write, with \n between lines.
try() {
    local want=$1 file=$2
    shift 2
    local got
    got=$("$folder/calls" "$@" <"$file") || true
    if [ "$got" != "$(printf '%b' "$want")" ]; then
        printf 'on %s %s\nwanted:\n%b\ngot:\n%s\n' "$file" "$*" "$want" "$got"
        exit 1
    fi
    tries=$((tries + 1))
}

examples=$here/../examples
try 'status 0, 0 answers, 0 bytes' "$examples/counter.abc"
try 'status 0, 4 answers, 14 bytes\nnumber 0\nnumber 8\nnumber 2\ntext The count is 2' "$examples/counter.abc" add:0 add:4 add:-3 report
# One heap for one list of calls, and no other.
try 'status 0, 2 answers, 14 bytes\nnumber 2\ntext The count is 2' "$examples/counter.abc" add:1 report
try 'status 0, 3 answers, 0 bytes\nstatus 1\nstatus 3\nstatus 2' "$examples/counter.abc" subtract add add:4294967296
try 'status 1, 0 answers, 8 bytes\nrefused by 2 at 0, 0: NoScript' "$examples/empty.abc" add
try 'status 1, 0 answers, 5 bytes\nrefused by 1 at 0, 0: Short' /dev/null add
try 'status 0, 1 answers, 3 bytes\nstatus 1' "$examples/hello.abc" add
echo "try_c.sh: $tries tries as wanted"
