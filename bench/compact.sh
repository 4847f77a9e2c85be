#!/usr/bin/env bash
# Time of compacting full regions, and of counting the size beforehand; a compaction is to stay within 20 ms. The region whose records are all
# in transition, where each search goes over all records, is timed beside the bound: no store is left so.
# It builds the small program below over copies of this repository's crates, in a folder of its own: some minutes.
# usage: bench/compact.sh [PROGRAM]      (default: the program is built)
set -eu
top="$(cd "$(dirname "${BASH_SOURCE[0]}")/.." && pwd)"
scratch="$(mktemp -d)"
trap 'rm -rf "$scratch"' EXIT
program="${1:-}"

if [ -z "$program" ]; then
    crate="$scratch/crates/compact_time"
    mkdir -p "$crate/src"
    for lower in var_header var_types var_region region_compact; do
        cp -r "$top/crates/$lower" "$scratch/crates/$lower"
    done
    grep -E '^(var_header|var_types|var_region|region_compact):' "$top/crates.txt" > "$scratch/crates.txt"
    echo 'compact_time: region_compact var_header var_region' >> "$scratch/crates.txt"
    cat > "$crate/src/main.rt" <<'PROGRAM'
//! Times compactions of full regions: a line for each, with the least time of some runs in microseconds.
#![tactic(auto)]

use region_compact::{Replace, compact, size_after};
use std::alloc::{AllocError, Global};
use std::io;
use std::time::Instant;
use var_header::{Header, write_header};
use var_region::Region;

// A full region: so many records one behind the other, with keys in turn from so many, in a state, with so many bytes of data.
struct Load {
    records: u16,
    keys: u16,
    state: u8,
    data: u8,
    name: &'static str,
}

const LOADS: [Load; 5] = [
    Load {
        records: 894,
        keys: 894,
        state: 0x3F,
        data: 0,
        name: "894 least records, ADDED",
    },
    Load {
        records: 894,
        keys: 894,
        state: 0x3E,
        data: 0,
        name: "894 least records, in transition",
    },
    Load {
        records: 400,
        keys: 40,
        state: 0x3F,
        data: 76,
        name: "400 records of 40 keys, ADDED",
    },
    Load {
        records: 400,
        keys: 40,
        state: 0x3E,
        data: 76,
        name: "400 records of 40 keys, in transition",
    },
    Load {
        records: 1,
        keys: 1,
        state: 0x3F,
        data: 1,
        name: "one record",
    },
];

const RUNS: u32 = 50;

// The size of a store's records in an image.
const ROOM: usize = 57_244;

fn push(bytes: &mut Vec<u8>, load: &Load, number: u16) -> Result<(), AllocError> {
    let header = Header {
        state: load.state,
        attributes: 7,
        time_stamp: [0; 16],
        name_size: 4,
        data_size: u32::from(load.data),
        vendor_guid: [0; 16],
    };
    let mut written = [0; 60];
    write_header(&header, &mut written);
    bytes.extend_from_slice(&written)?;
    let unit = number.checked_rem(load.keys).unwrap_or(0).saturating_add(0x1000);
    bytes.extend_from_slice(&unit.to_le_bytes())?;
    bytes.extend_from_slice(&[0, 0])?;
    for _ in 0..load.data {
        bytes.push(7)?;
    }
    Ok(())
}

fn full(alloc: Global, load: &Load) -> Result<Vec<u8>, AllocError> {
    let mut bytes = Vec::new(alloc);
    for number in 0..load.records {
        push(&mut bytes, load, number)?;
    }
    let missing = ROOM.saturating_sub(bytes.len());
    for _ in 0..missing {
        bytes.push(0xFF)?;
    }
    Ok(bytes)
}

// The size of what a compaction leaves in a buffer, or 0.
fn compacted(bytes: &[u8], into: &mut [u8]) -> u32 {
    if bytes.len() > 65536 || into.len() > 65536 {
        return 0;
    }
    compact(&Region::over(bytes, 0, true), Replace::None, into).unwrap_or(0)
}

// The size that a compaction says beforehand, or 0.
fn counted(bytes: &[u8]) -> u32 {
    if bytes.len() > 65536 {
        return 0;
    }
    size_after(&Region::over(bytes, 0, true), Replace::None)
}

fn main(rt: HostRuntime) -> io::Result<()> {
    let alloc = rt.alloc();
    for load in &LOADS {
        let bytes = full(alloc, load)?;
        let mut into = vec![in alloc; 0; ROOM]?;
        let mut size = 0;
        let mut best = u128::MAX;
        let mut sized = u128::MAX;
        for _ in 0..RUNS {
            let start = Instant::now(&rt)?;
            size = compacted(&bytes, &mut into);
            best = best.min(start.elapsed(&rt)?.as_micros());
            let start = Instant::now(&rt)?;
            let need = counted(&bytes);
            sized = sized.min(start.elapsed(&rt)?.as_micros());
            if need != size {
                println!(rt; "{}: {need} bytes counted, {size} written", load.name)?;
            }
        }
        println!(rt; "{}: compact {best} us, size_after {sized} us ({size} bytes)", load.name)?;
    }
    Ok(())
}
PROGRAM
    (cd "$crate" && rt run) > "$scratch/built" 2>&1 || { cat "$scratch/built"; exit 1; }
    grep -E '[0-9] us' "$scratch/built" > "$scratch/times"
else
    "$program" > "$scratch/times"
fi

cat "$scratch/times"
worst="$(grep -v 'least records, in transition' "$scratch/times" | grep -oE 'compact [0-9]+' | grep -oE '[0-9]+' | sort -n | tail -1)"
printf 'at most %d.%03d ms for a compaction (at most 20)\n' "$((worst / 1000))" "$((worst % 1000))"
[ "$worst" -le 20000 ] || { echo "too slow"; exit 1; }
