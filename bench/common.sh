# For the scripts of this folder, which name a folder for their files. ABC names a built program, where it is not that of
# this repository, and RUNS how many runs there are of each program, where it is not five.
here=$(cd "$(dirname "${BASH_SOURCE[0]}")" && pwd)
folder=${1:-/tmp/abc-bench}
abc=${ABC:-$here/../crates/abc/out/program}
peer=$folder/target/release/baseline
# As bin/abc does it, for both programs.
export GLIBC_TUNABLES="glibc.malloc.hugetlb=1${GLIBC_TUNABLES:+:$GLIBC_TUNABLES}"

# Makes the files of these kinds, and builds both programs.
prepare() {
    python3 "$here/files.py" "$folder" "$@"
    CARGO_TARGET_DIR=$folder/target cargo build --offline --quiet --release --manifest-path "$here/baseline/Cargo.toml"
    [ -n "${ABC:-}" ] || "$here/../bin/abc" canon <"$here/../examples/empty.abc" >/dev/null
}

# Measures the command $1 on the kinds and with the options of measure.py that follow. The peer's command may have another
# word, which stands behind a colon.
measure() {
    local word=${1%:*} peer_word=${1#*:}
    shift
    echo "$word:"
    python3 "$here/measure.py" "$abc $word" "$peer $peer_word" "$folder" "$@" --runs "${RUNS:-5}"
}
