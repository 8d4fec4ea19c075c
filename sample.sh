#!/bin/sh
# Proves and builds the library and the tool, then does the main job on document 01's sample list: builds its cycle, checks
# it against the list, looks tag 5 up from bucket 0, and shows what is heard from every tune-in.
set -e
root=$(cd "$(dirname "$0")" && pwd)
folder=$(mktemp -d)
trap 'rm -r "$folder"' EXIT

cd "$root"
echo "Proving the library, some minutes where nothing is proved yet."
(cd crates/pansdaoh && rt lib --cpu x86-64) >"$folder/log" 2>&1 || {
    cat "$folder/log"
    exit 1
}
(cd host && cargo build --release --offline --locked --quiet -p tares)

cp host/sample/list "$folder/list"
cd "$folder"
run() {
    echo
    echo "\$ tares $*"
    "$root/host/target/release/tares" "$@"
}
run build list image --n 2 --p 1 --layout 1 --copies 1
run check list image
run lookup image 5 --tune-in 0
echo
echo "Tune-in, heard, elapsed and lines, from every bucket:"
run table image 5
