#!/usr/bin/env bash
# Time of 5,000 puts over 40 keys to a nearly full store, in memory and over a file, by kind: in place, and through the spare. Beside it the time
# of writing the same bytes to a file with the same number of writes.
# It builds the small program below over copies of this repository's crates, in a folder of its own: some minutes. Needs python3.
# usage: bench/store.sh [PROGRAM]      (default: the program is built)
set -eu
top="$(cd "$(dirname "${BASH_SOURCE[0]}")/.." && pwd)"
scratch="$(mktemp -d)"
trap 'rm -rf "$scratch"' EXIT
program="${1:-}"
crates="outside var_header var_types flash_dev ftw_work ftw_spare ftw_mount var_region region_compact nv_store"

if [ -z "$program" ]; then
    crate="$scratch/crates/store_time"
    mkdir -p "$crate/src"
    for lower in $crates; do
        cp -r "$top/crates/$lower" "$scratch/crates/$lower"
        grep -E "^$lower:" "$top/crates.txt" >> "$scratch/crates.txt"
    done
    echo 'store_time: flash_dev nv_store var_region var_types' >> "$scratch/crates.txt"
    cat > "$crate/src/main.rt" <<'PROGRAM'
//! Times puts to a nearly full store: a line for each flash, with the number of puts of each kind and their mean time.
#![tactic(auto)]

use flash_dev::{FaultPlan, FileFlash, Flash, MemFlash, Torn, format_image};
use nv_store::{NvStore, StoreFault};
use std::fs;
use std::io;
use std::time::Instant;
use var_region::NewRecord;
use var_types::{Guid, Stamp, check_name};

const PUTS: u32 = 5000;

const KEYS: u32 = 40;

const NAME: [u16; 1] = [0x41];

const FILE: &str = "store-image";

// How many puts there were of a kind, and how long they took together.
#[derive(Drop)]
struct Kind {
    puts: u32,
    nanos: u128,
}

impl Kind {
    fn none() -> Kind {
        Kind { puts: 0, nanos: 0 }
    }

    fn add(&mut self, nanos: u128) {
        self.puts = self.puts.saturating_add(1);
        self.nanos = self.nanos.saturating_add(nanos);
    }

    // The mean time in units of 10 nanoseconds.
    fn mean(&self) -> u128 {
        let puts = u128::from(self.puts);
        self.nanos.checked_div(puts.saturating_mul(10)).unwrap_or(0)
    }
}

// Whether the put went through the spare, where it was done.
fn put<F: Flash>(store: &mut NvStore<F>, key: u32, data: &[u8]) -> Option<bool> {
    if store.in_doubt() || check_name(&NAME).is_err() || data.len() > 65_536 {
        return None;
    }
    let mut bytes = [0; 16];
    bytes[0] = u8::try_from(key).unwrap_or(0);
    let new = NewRecord {
        guid: Guid { bytes },
        name: &NAME,
        attributes: 7,
        stamp: Stamp { bytes: [0; 16] },
        payload: data,
    };
    let [first, _, _] = store.put_spans(&new);
    match store.put(&new) {
        Ok(()) => Some(first.to == 57_344),
        Err(_) => None,
    }
}

fn next(seed: u32) -> u32 {
    seed.wrapping_mul(1_664_525).wrapping_add(1_013_904_223)
}

fn measure<F: Flash>(rt: &HostRuntime, name: &str, store: NvStore<F>) -> io::Result<()> {
    let mut store = store;
    let mut in_place = Kind::none();
    let mut anew = Kind::none();
    let mut refused = 0u32;
    let mut seed = 1u32;
    for _ in 0..PUTS {
        seed = next(seed);
        let key = (seed >> 8).checked_rem(KEYS).unwrap_or(0);
        let size = ((seed >> 12) % 301) as usize + 1000;
        let [_, byte, _, _] = seed.to_le_bytes();
        let data = vec![in rt.alloc(); byte; size]?;
        let start = Instant::now(rt)?;
        let done = put(&mut store, key, &data);
        let nanos = start.elapsed(rt)?.as_nanos();
        match done {
            Some(true) => anew.add(nanos),
            Some(false) => in_place.add(nanos),
            None => refused = refused.saturating_add(1),
        }
    }
    let first = in_place.mean();
    let second = anew.mean();
    println!(rt; "{name} {} {first} {} {second} {refused}", in_place.puts, anew.puts)?;
    Ok(())
}

fn run<F: Flash>(rt: &HostRuntime, name: &str, flash: F) -> io::Result<()> {
    let mut flash = flash;
    if format_image(&mut flash).is_err() {
        println!(rt; "{name}: it can't be formatted")?;
        return Ok(());
    }
    match NvStore::load(rt.alloc(), flash) {
        Ok(store) => measure(rt, name, store),
        Err(_) => {
            println!(rt; "{name}: no store is opened")?;
            Ok(())
        }
    }
}

fn main(rt: HostRuntime) -> io::Result<()> {
    let alloc = rt.alloc();
    let bytes = vec![in alloc; 0xFFu8; 131_072]?;
    fs::write(&rt, FILE, bytes.as_slice())?;
    let plan = FaultPlan {
        fails: Vec::new(alloc),
        stop_at: None,
        torn: Torn::Before,
    };
    run(&rt, "memory", MemFlash::new(bytes, plan))?;
    let flash = FileFlash::on(&rt, FILE);
    run(&rt, "file", flash)?;
    fs::remove_file(&rt, FILE)?;
    Ok(())
}
PROGRAM
    (cd "$crate" && rt run) > "$scratch/built" 2>&1 || { cat "$scratch/built"; exit 1; }
    grep -E '^(memory|file) ' "$scratch/built" > "$scratch/times" || { cat "$scratch/built"; exit 1; }
else
    (cd "$scratch" && "$program") > "$scratch/times"
fi

python3 - "$scratch/times" "$scratch/plain" <<'PYTHON'
import os, sys, time

SPARE = [4096] * 16 + [57344, 1] + [4096] * 14 + [57344, 1]
IN_PLACE = [1, 60, 1, 1154, 1, 1]


def plain(path, sizes, puts):
    """The mean time of writes of these sizes to a file, in microseconds a put."""
    pieces = [bytes(size) for size in sizes]
    file = os.open(path, os.O_RDWR | os.O_CREAT)
    start = time.perf_counter()
    for _ in range(puts):
        at = 0
        for piece in pieces:
            os.pwrite(file, piece, at)
            at += len(piece)
    took = time.perf_counter() - start
    os.close(file)
    return took * 1e6 / max(puts, 1)


for line in open(sys.argv[1]):
    name, puts, mean, spare, spare_mean, refused = line.split()
    puts, spare, refused = int(puts), int(spare), int(refused)
    share = 100 * spare / max(puts + spare, 1)
    print(f"{name}: {puts} in place, {int(mean) / 100:.2f} us each; {spare} through the spare ({share:.1f} %), {int(spare_mean) / 100:.2f} us each; {refused} refused")
print(f"the same bytes written to a file with as many writes: {plain(sys.argv[2], IN_PLACE, puts):.2f} us each; {plain(sys.argv[2], SPARE, spare):.2f} us each")
PYTHON
