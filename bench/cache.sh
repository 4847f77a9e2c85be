#!/usr/bin/env bash
# Times of a cache's gets and merges, beside those of plain copies of as many bytes.
# The program below is proved and built in a folder of its own, over copies of the crates that it stands on.
# usage: bench/cache.sh [FOLDER]      (default: a temporary folder; one that is kept makes the next run short)
set -eu
top="$(cd "$(dirname "${BASH_SOURCE[0]}")/.." && pwd)"
folder="${1:-}"
if [ -z "$folder" ]; then
    folder="$(mktemp -d)"
    trap 'rm -rf "$folder"' EXIT
fi
crates="var_header var_types var_region pending_range runtime_cache"

mkdir -p "$folder/crates/cache_bench/src"
for crate in $crates; do
    [ -d "$folder/crates/$crate" ] || cp -a "$top/crates/$crate" "$folder/crates/"
    for part in src specs proofs; do
        rm -rf "${folder:?}/crates/$crate/$part"
        cp -a "$top/crates/$crate/$part" "$folder/crates/$crate/" 2>/dev/null || true
    done
    grep "^$crate:" "$top/crates.txt"
done >"$folder/crates.txt"
echo "cache_bench: anyhow pending_range runtime_cache var_types" >>"$folder/crates.txt"
cat >"$folder/crates/cache_bench/src/main.rt" <<'RATTLE'
//! Times of a cache's calls beside those of copies of as many bytes, in nanoseconds a call.
#![tactic(auto)]

use anyhow::Error;
use pending_range::Ranges;
use runtime_cache::Cache;
use std::alloc::{AllocError, Global};
use std::time::Instant;
use var_types::{GetAnswer, Guid, Store};

const VOLUME: usize = 57_344;

const VOLATILE: usize = 65_536;

const GETS: u32 = 20_000;

const MERGES: u32 = 20_000;

/// How many variables each store has.
const EACH: u16 = 100;

/// How many bytes of data each variable has.
const DATA: usize = 200;

fn guid() -> Guid {
    Guid { bytes: [7; 16] }
}

/// The name of a variable: ten units.
fn name(number: u16) -> [u16; 10] {
    [0x100 + number % 256, 0x42, 0x43, 0x44, 0x45, 0x46, 0x47, 0x48, 0x49, 0x4A]
}

fn push(bytes: &mut Vec<u8>, number: u16, attributes: u8) -> Result<(), AllocError> {
    bytes.extend_from_slice(&[0xAA, 0x55, 0x3F, 0, attributes, 0, 0, 0])?;
    bytes.extend_from_slice(&[0; 28])?;
    bytes.extend_from_slice(&[22, 0, 0, 0])?;
    bytes.extend_from_slice(&[DATA as u8, 0, 0, 0])?;
    bytes.extend_from_slice(&[7; 16])?;
    for unit in name(number) {
        bytes.extend_from_slice(&unit.to_le_bytes())?;
    }
    bytes.extend_from_slice(&[0, 0])?;
    bytes.extend_from_slice(&[0x5A; DATA])?;
    if bytes.len() % 4 != 0 {
        bytes.extend_from_slice(&[0xFF; 4][bytes.len() % 4..])?;
    }
    Ok(())
}

/// A store whose variables begin at a number, full size.
fn store(
    alloc: Global,
    headers: usize,
    from: u16,
    attributes: u8,
    size: usize,
) -> Result<Vec<u8>, AllocError> {
    let mut bytes = vec![in alloc; 0x11; headers]?;
    for number in 0..EACH {
        push(&mut bytes, from.wrapping_add(number), attributes)?;
    }
    let left = size.saturating_sub(bytes.len());
    bytes.extend_from_slice(&vec![in alloc; 0xFF; left]?)?;
    Ok(bytes)
}

/// Gets of all variables in turn; how many bytes were answered.
fn gets(cache: &Cache, into: &mut [u8; 256]) -> u64 {
    let owner = guid();
    let mut answered = 0u64;
    for turn in 0..GETS {
        let wanted = name((turn % 200) as u16);
        if let GetAnswer::Ok { length, .. } = cache.get(&owner, &wanted, 256, into) {
            answered = answered.wrapping_add(u64::from(length));
        }
    }
    answered
}

fn merges(cache: &mut Cache, first: &[u8], second: &[u8], ranges: &Ranges) {
    if first.len() != VOLUME || second.len() != VOLATILE {
        return;
    }
    for turn in 0..MERGES {
        cache.merge(first, second, turn % 2 == 0, ranges);
    }
}

/// Copies of parts of both stores, of as many bytes as a merge takes.
fn copies(from: &[u8], into: &mut [u8]) {
    if from.len() != into.len() {
        return;
    }
    for turn in 0..MERGES {
        into.copy_from_slice(from);
        if let Some(first) = into.first_mut() {
            *first = (turn % 128) as u8;
        }
    }
}

fn each(nanoseconds: u128, calls: u32) -> u128 {
    nanoseconds / u128::from(calls.max(1))
}

fn main(rt: HostRuntime) -> Result<(), Error> {
    let alloc = rt.alloc();
    let first = store(alloc, 100, 0, 7, VOLUME)?;
    let second = store(alloc, 28, EACH, 6, VOLATILE)?;
    if first.len() != VOLUME || second.len() != VOLATILE {
        return Ok(());
    }
    let mut cache = Cache::make(alloc, &first, &second, false)?;
    let mut into = [0; 256];

    let start = Instant::now(&rt)?;
    let answered = gets(&cache, &mut into);
    let took = start.elapsed(&rt)?.as_nanos();
    println!(rt; "get {} {answered}", each(took, GETS))?;

    let mut old = vec![in alloc; 0; VOLUME + VOLATILE]?;
    let new = vec![in alloc; 1; VOLUME + VOLATILE]?;
    for bytes in [80usize, 4_096, VOLUME + VOLATILE] {
        let mut ranges = Ranges::empty();
        if bytes > VOLUME {
            ranges.whole(Store::NonVolatile);
            ranges.whole(Store::Volatile);
        } else {
            ranges.extend(Store::NonVolatile, 1_000, 1_000 + bytes as u32);
        }
        let start = Instant::now(&rt)?;
        merges(&mut cache, &first, &second, &ranges);
        let took = start.elapsed(&rt)?.as_nanos();
        if bytes > new.len() || bytes > old.len() {
            return Ok(());
        }
        let start = Instant::now(&rt)?;
        copies(&new[..bytes], &mut old[..bytes]);
        let plain = start.elapsed(&rt)?.as_nanos();
        let (took, plain) = (each(took, MERGES), each(plain, MERGES));
        println!(rt; "merge {bytes} {took} {plain}")?;
    }
    let sum = old.iter().filter(|byte| **byte == 1).count();
    println!(rt; "sum {sum}")?;
    Ok(())
}
RATTLE

echo "building the program, which takes some minutes the first time" >&2
log="$folder/log"
if ! (cd "$folder/crates/cache_bench" && rt run </dev/null) >"$log" 2>&1; then
    cat "$log" >&2
    exit 1
fi

"$folder/crates/cache_bench/out/cache_bench" | while read -r kind first second third; do
    case "$kind" in
        get) echo "a get over 200 variables: $first ns ($second bytes answered by 20,000)" ;;
        merge) echo "a merge of $first bytes: $second ns, a copy of as many: $third ns" ;;
    esac
done
