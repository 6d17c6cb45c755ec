#!/usr/bin/env bash
# Counts the instructions that `hetunawa load` and ninja take to read one manifest, by callgrind.
#   bench/load.sh [PROGRAM]      PROGRAM is crates/hetunawa/out/hetunawa unless it is given
set -eu
here=$(cd "$(dirname "$0")/.." && pwd)
program=${1:-$here/crates/hetunawa/out/hetunawa}

missing=0
lacks() {
    echo "bench/load.sh: $1" >&2
    missing=1
}
command -v python3 > /dev/null || lacks "python3 is not installed"
command -v valgrind > /dev/null || lacks "valgrind is not installed; it counts the instructions"
command -v ninja > /dev/null || lacks "ninja is not installed; it is what the program is compared with"
[ -x "$program" ] || lacks "there is no program $program; make it first, or name one"
[ "$missing" -eq 0 ] || exit 2

folder=$(mktemp -d)
trap 'rm -rf "$folder"' EXIT
manifest=$folder/build.ninja
python3 "$here/bench/make_manifest.py" > "$manifest"

# Prints how many instructions a command takes, callgrind's records going to the temporary folder.
count() {
    name=$1
    shift
    if ! valgrind --tool=callgrind --callgrind-out-file="$folder/$name.callgrind" "$@" > /dev/null 2> "$folder/$name.log"; then
        echo "bench/load.sh: $name failed on the manifest:" >&2
        grep -v '^==' "$folder/$name.log" >&2 || true
        exit 1
    fi
    sed -n 's/^totals: \([0-9]*\).*/\1/p' "$folder/$name.callgrind"
}

echo "manifest: $(wc -c < "$manifest") bytes"
theirs=$(count ninja ninja -f "$manifest" -t targets all)
echo "ninja $(ninja --version): $theirs instructions"
ours=$(count hetunawa "$program" load "$manifest")
echo "hetunawa load: $ours instructions"
awk -v ours="$ours" -v theirs="$theirs" 'BEGIN { printf "ratio: %.3f of what ninja takes\n", ours / theirs }'
