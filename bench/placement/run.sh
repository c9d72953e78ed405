#!/bin/sh
# Builds the crate into a static library, outside the repository, and times it beside its twin in plain Rust.
#     bench/placement/run.sh [FOLDER]      FOLDER is where it builds, /tmp/placement-bench without it
# It needs the kit's rt and cargo, and no network. RATTLE_KIT is the kit's folder, /opt/rattle without it.
set -eu
here=$(cd "$(dirname "$0")" && pwd)
work=${1:-/tmp/placement-bench}
export_crate=$work/crates/dm_placement_c

rm -rf "$work/crates"
mkdir -p "$export_crate/src"
for name in dm_event dm_model dm_placement; do
    mkdir -p "$work/crates/$name"
    (cd "$here/../../crates/$name" && tar cf - --exclude=./out .) | (cd "$work/crates/$name" && tar xf -)
done
cat > "$work/crates.txt" <<'LINES'
dm_event:
dm_model: dm_event
dm_placement: dm_event dm_model circular_buffer
dm_placement_c staticlib: dm_event dm_placement
LINES

# The export is no crate of the repository: its functions that test conditions are the tests' own.
cp "$here/export.txt" "$export_crate/src/lib.rt"
for name in set_of are_sites are_as_many; do
    mkdir -p "$export_crate/proofs/$name"
    sed "s/dm_placement.proofs.tests.$name/dm_placement_c.proofs.$name/" \
        "$here/../../crates/dm_placement/proofs/tests/$name/Invariants.antt" > "$export_crate/proofs/$name/Invariants.antt"
done
(cd "$export_crate" && rt lib)

# Both are built for the same processor.
cd "$here"
RUSTFLAGS="-C target-cpu=x86-64-v2" PLACEMENT_LIBRARY=$export_crate/out RATTLE_C=${RATTLE_KIT:-/opt/rattle}/c \
    cargo run --quiet --release --offline --target-dir "$work/target"
