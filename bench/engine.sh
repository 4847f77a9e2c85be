#!/usr/bin/env bash
# Time of 20,000 gets over 200 variables of 40 bytes, at most 400 ms, and of 13,000 non-volatile sets over 40 keys, at most one second, on the
# writer's side over a flash in memory, and how many flash steps and compactions the sets made.
# It builds the small program below over copies of this repository's crates, in a folder of its own: some minutes.
# usage: bench/engine.sh [PROGRAM]      (default: the program is built)
set -eu
top="$(cd "$(dirname "${BASH_SOURCE[0]}")/.." && pwd)"
scratch="$(mktemp -d)"
trap 'rm -rf "$scratch"' EXIT
program="${1:-}"
crates="outside var_header var_types flash_dev ftw_work ftw_spare ftw_mount auth_rules policy_entry policy_match policy_table set_rules
    var_region region_compact pending_range var_trace runtime_cache nv_store mm_writer"

if [ -z "$program" ]; then
    crate="$scratch/crates/engine_time"
    mkdir -p "$crate/src"
    for lower in $crates; do
        cp -r "$top/crates/$lower" "$scratch/crates/$lower"
        grep -E "^$lower:" "$top/crates.txt" >> "$scratch/crates.txt"
    done
    echo 'engine_time: flash_dev mm_writer var_types' >> "$scratch/crates.txt"
    cat > "$crate/src/main.rt" <<'PROGRAM'
//! Times gets and non-volatile sets of the writer's side: a line for each.
#![tactic(auto)]

use flash_dev::{FaultPlan, MemFlash, Torn, format_image};
use mm_writer::Engine;
use std::alloc::{AllocError, Global};
use std::io;
use std::time::Instant;
use var_types::{Bytes, GetAnswer, Guid, SetCall, SetReply, Units, Verdict};

const VENDOR: Guid = Guid { bytes: [7; 16] };

const GETS: u32 = 20_000;

const SETS: u32 = 13_000;

// A formatted flash in memory.
fn formatted(alloc: Global) -> Result<MemFlash, AllocError> {
    let plan = FaultPlan {
        fails: Vec::new(alloc),
        stop_at: None,
        torn: Torn::Before,
    };
    let mut flash = MemFlash::new(vec![in alloc; 0xFFu8; 131_072]?, plan);
    // An engine is opened over it only where it was formatted.
    let _ = format_image(&mut flash);
    Ok(flash)
}

fn unit_of(number: u32, keys: u32) -> u16 {
    u16::try_from(number.checked_rem(keys).unwrap_or(0)).unwrap_or(0).saturating_add(0x1000)
}

// A set of 40 bytes at one of so many keys.
fn call_of(alloc: Global, number: u32, keys: u32) -> Result<SetCall, io::Error> {
    let [byte, more, _, _] = number.to_le_bytes();
    let mut data = vec![in alloc; byte; 39]?;
    data.push(more)?;
    let name = match Units::new(alloc, &[unit_of(number, keys)]) {
        Ok(name) => name,
        Err(_) => Units::from_vec(Vec::new(alloc)),
    };
    Ok(SetCall {
        guid: VENDOR,
        name,
        attributes: 7,
        bytes: Bytes::from_vec(data),
        verdict: Verdict::Good,
    })
}

// What sets came to: the time that they took, how many were done, and how many wrote the volume anew.
#[derive(Clone, Copy)]
struct Total {
    nanos: u128,
    done: u32,
    anew: u32,
}

fn one_set(rt: &HostRuntime, engine: &mut Engine<MemFlash>, call: &SetCall) -> io::Result<(u128, bool)> {
    let start = Instant::now(rt)?;
    let reply = engine.set(0, 0, call);
    let nanos = start.elapsed(rt)?.as_nanos();
    Ok((nanos, matches!(reply, SetReply::Ok)))
}

fn count(total: &mut Total, nanos: u128, is_done: bool, steps: u32) {
    total.nanos = total.nanos.saturating_add(nanos);
    if is_done {
        total.done = total.done.saturating_add(1);
    }
    if steps > 7 {
        total.anew = total.anew.saturating_add(1);
    }
}

// So many sets over so many keys.
fn sets(
    rt: &HostRuntime,
    engine: &mut Engine<MemFlash>,
    number_of_sets: u32,
    keys: u32,
) -> io::Result<Total> {
    let mut total = Total {
        nanos: 0,
        done: 0,
        anew: 0,
    };
    for number in 0..number_of_sets {
        let call = call_of(rt.alloc(), number, keys)?;
        let calls = engine.flash().calls();
        let (nanos, is_done) = one_set(rt, engine, &call)?;
        let steps = engine.flash().calls().saturating_sub(calls);
        count(&mut total, nanos, is_done, steps);
    }
    Ok(total)
}

// So many gets over so many keys: the time that they took, and how many found their variable.
fn gets(
    rt: &HostRuntime,
    engine: &Engine<MemFlash>,
    count: u32,
    keys: u32,
) -> io::Result<(u128, u32)> {
    let mut into = vec![in rt.alloc(); 0u8; 65_536]?;
    let mut found = 0u32;
    let start = Instant::now(rt)?;
    for number in 0..count {
        if into.len() == 65_536 {
            let answer = engine.get(&VENDOR, &[unit_of(number, keys)], 64, &mut into);
            if matches!(answer, GetAnswer::Ok { .. }) {
                found = found.saturating_add(1);
            }
        }
    }
    Ok((start.elapsed(rt)?.as_nanos(), found))
}

fn time_gets(rt: &HostRuntime, engine: &mut Engine<MemFlash>) -> io::Result<()> {
    let total = sets(rt, engine, 200, 200)?;
    let (nanos, found) = gets(rt, engine, GETS, 200)?;
    let micros = nanos / 1000;
    println!(rt; "gets {micros} {found} {}", total.done)?;
    Ok(())
}

fn time_sets(rt: &HostRuntime, engine: &mut Engine<MemFlash>) -> io::Result<()> {
    let opening = engine.flash().calls();
    let total = sets(rt, engine, SETS, 40)?;
    let steps = engine.flash().calls().saturating_sub(opening);
    let micros = total.nanos / 1000;
    println!(rt; "sets {micros} {} {steps} {}", total.done, total.anew)?;
    Ok(())
}

fn open(alloc: Global, limit: u64) -> Result<Option<Engine<MemFlash>>, AllocError> {
    Ok(Engine::begin(alloc, formatted(alloc)?, limit).ok())
}

fn main(rt: HostRuntime) -> io::Result<()> {
    if let Some(mut engine) = open(rt.alloc(), 300)? {
        time_gets(&rt, &mut engine)?;
    }
    if let Some(mut engine) = open(rt.alloc(), 20_000)? {
        time_sets(&rt, &mut engine)?;
    }
    Ok(())
}
PROGRAM
    (cd "$crate" && rt run) > "$scratch/built" 2>&1 || { cat "$scratch/built"; exit 1; }
    grep -E '^(gets|sets) ' "$scratch/built" > "$scratch/times" || { cat "$scratch/built"; exit 1; }
else
    "$program" > "$scratch/times"
fi

while read -r what micros done more anew; do
    if [ "$what" = gets ]; then
        bound=400000
        [ "$done $more" = "20000 200" ] || { echo "$done gets found their variable, of $more that were set"; exit 1; }
        printf '20,000 gets over 200 variables of 40 bytes: %d.%03d ms (at most 400)\n' "$((micros / 1000))" "$((micros % 1000))"
    else
        bound=1000000
        [ "$done" = 13000 ] || { echo "$done sets were done"; exit 1; }
        printf '13,000 non-volatile sets over 40 keys: %d.%03d ms (at most 1000), %d flash steps, %d compactions\n' \
            "$((micros / 1000))" "$((micros % 1000))" "$more" "$anew"
    fi
    [ "$micros" -le "$bound" ] || { echo "too slow"; exit 1; }
done < "$scratch/times"
