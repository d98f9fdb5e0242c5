#!/bin/sh
# Makes handover.svg beside this file: a recorder in the middle of a handover, and after it.
# The picture is the same at each run, since it does not show what the keys are.
#
#   cargo build --release --offline --manifest-path rust/Cargo.toml
#   docs/img/handover.sh rust/target/release/johvimaru
set -eu
johvimaru=$(realpath "${1:-$(command -v johvimaru)}")
out=$(realpath "${2:-$(dirname "$0")/handover.svg}")
folder=$(mktemp -d)
trap 'rm -rf "$folder"' EXIT
cd "$folder"

# The first firm's draughts in files 0 and 1, its track in file 2.
"$johvimaru" --image wipe-cut.img format --blocks 16
for offset in 0 1 2 3 4 5; do
    "$johvimaru" --image wipe-cut.img write 0 $offset "draught $offset"
    "$johvimaru" --image wipe-cut.img write 2 $offset "track $offset"
done
"$johvimaru" --image wipe-cut.img write 1 0 "draught mid"
"$johvimaru" --image wipe-cut.img write 0 0 "draught 0, read again"
"$johvimaru" --image wipe-cut.img write 13 7 "crew"
"$johvimaru" --image wipe-cut.img cut-off 2 4
# The power fails in a write, and in the wipe of the draughts.
"$johvimaru" --image wipe-cut.img write 2 4 "track 4" --cut 0,100
"$johvimaru" --image wipe-cut.img wipe 0 0 --cut 22,12

# The recorder is handed over, and the next firm writes.
cp wipe-cut.img handed-over.img
"$johvimaru" --image handed-over.img handover
"$johvimaru" --image handed-over.img write 0 0 "draught of the next firm"

"$johvimaru" map --before wipe-cut.img --after handed-over.img --svg "$out"
