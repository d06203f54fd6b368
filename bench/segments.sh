#!/usr/bin/env bash
# Times a segment file of 8,192 orders (four columns, a unique key, an index, a sort key): microseconds to write it, to read it, to own it, to view it again and for its
# least and greatest values, nanoseconds to find a key, and beside them what hashing the same bytes with SHA-256 takes.
# The program below is proved and built over a copy of the crates, so that it stands in no gate. The orders are those of the crate's tests.
set -eu
top=$(cd "$(dirname "$0")/.." && pwd)
work=${WORK:-$(mktemp -d)}
trap 'rm -rf "$work"' EXIT
mkdir -p "$work/crates"
names='value model colbytes colplain colruns colenc segindex segment'
for name in $names; do
    mkdir "$work/crates/s2_$name"
    for part in src specs proofs; do
        [ ! -d "$top/crates/s2_$name/$part" ] || cp -r "$top/crates/s2_$name/$part" "$work/crates/s2_$name/"
    done
    grep "^s2_$name:" "$top/crates.txt" >> "$work/crates.txt"
done
echo 's2_segbench: s2_value s2_model s2_segindex s2_segment sha2' >> "$work/crates.txt"
mkdir -p "$work/crates/s2_segbench/src"
sed 's/^use crate::/use s2_segment::/' "$top/crates/s2_segment/src/bed.rt" > "$work/crates/s2_segbench/src/bed.rt"
cat > "$work/crates/s2_segbench/src/main.rt" <<'PROGRAM'
//! Times a segment file of 8,192 orders.
#![tactic(auto)]

mod bed;

ghost use Rattle.std.specs.Prelude.{◌≡◌, ◌≤◌, true, length};
ghost use Rattle.s2_model.specs.Files.{rows_fit, row_numbers};
ghost use Rattle.s2_segment.specs.Parts.{are_ids};
ghost use Rattle.s2_model.specs.Laws.{is_in_file_order};

use crate::bed::{number, orders, orders_table};
use s2_segindex::Index;
use s2_segment::{File, View, all_fit, are_numbered, are_ordered, write};
use s2_value::{Key, Row, Schema};
use sha2::{Digest, Sha256};
use std::io;
use std::test::Fail;
use std::time::{CpuClock, Duration};

const ROUNDS: u32 = 20;

const LOOKS: u32 = 100_000;

// Processor time, so that other work on the machine counts for little.
fn micros(rt: &HostRuntime, start: Duration, rounds: u32) -> io::Result<f64> {
    Ok(rt.thread_cpu_time()?.saturating_sub(start).as_secs_f64() * 1e6 / f64::from(rounds))
}

fn told(rt: &HostRuntime, what: &str, time: f64, sum: usize) -> io::Result<()> {
    println!(rt; "{what}: {time:.1} us ({sum})")
}

fn time_write(rt: &HostRuntime, schema: &Schema, rows: &[(u64, Row)]) -> io::Result<()>
    requires some { 1 ≤ length rows.now }
    requires few { length rows.now ≤ 8192 }
    requires fit { rows_fit schema.now rows.now ≡ true }
    requires ids { are_ids (row_numbers rows.now) ≡ true }
    requires order { is_in_file_order schema.now rows.now ≡ true }
{
    let start = rt.thread_cpu_time()?;
    let mut sum = 0usize;
    for _ in 0..ROUNDS {
        sum = sum.wrapping_add(write(rt.alloc(), schema, rows)?.len());
    }
    told(rt, "write", micros(rt, start, ROUNDS)?, sum)
}

// The first byte is written in each round, so that no round can stand for another.
fn time_read(rt: &HostRuntime, schema: &Schema, bytes: &mut [u8]) -> io::Result<()> {
    let nothing = (bytes.len() / 16_777_216 % 256) as u8;
    let start = rt.thread_cpu_time()?;
    let mut sum = 0usize;
    for _ in 0..ROUNDS {
        if let Some(first) = bytes.first_mut() {
            *first = first.wrapping_add(nothing);
        }
        sum = sum.wrapping_add(usize::from(View::read(rt.alloc(), schema, bytes).is_ok()));
    }
    told(rt, "read", micros(rt, start, ROUNDS)?, sum)
}

fn time_hash(rt: &HostRuntime, bytes: &mut [u8]) -> io::Result<()> {
    let start = rt.thread_cpu_time()?;
    let mut sum = 0usize;
    for round in 0..ROUNDS {
        if let Some(last) = bytes.last_mut() {
            *last = (round % 256) as u8;
        }
        let digest = Sha256::digest(&*bytes);
        sum = sum.wrapping_add(usize::from(digest[0]));
    }
    told(rt, "hash", micros(rt, start, ROUNDS)?, sum)
}

fn time_of(rt: &HostRuntime, schema: &Schema, bytes: &[u8]) -> io::Result<()> {
    let start = rt.thread_cpu_time()?;
    let mut sum = 0usize;
    for _ in 0..ROUNDS {
        let same = Vec::from_slice(rt.alloc(), bytes)?;
        sum = sum.wrapping_add(usize::from(File::of(rt.alloc(), schema, same).is_ok()));
    }
    told(rt, "own", micros(rt, start, ROUNDS)?, sum)
}

fn time_view(rt: &HostRuntime, schema: &Schema, file: &File) -> io::Result<()>
    requires { schema.now ≡ file.now.schema }
{
    let start = rt.thread_cpu_time()?;
    let mut sum = 0usize;
    for _ in 0..ROUNDS {
        sum = sum.wrapping_add(file.view(rt.alloc(), schema)?.rows() as usize);
    }
    told(rt, "view of an owned file", micros(rt, start, ROUNDS)?, sum)
}

fn time_stats(rt: &HostRuntime, view: &View<'_>) -> io::Result<()> {
    let start = rt.thread_cpu_time()?;
    let mut sum = 0usize;
    for _ in 0..ROUNDS {
        sum = sum.wrapping_add(view.stats(rt.alloc())?.len());
    }
    told(
        rt,
        "least and greatest values",
        micros(rt, start, ROUNDS)?,
        sum,
    )
}

fn keys(rt: &HostRuntime) -> Result<Vec<Key>, Fail> {
    let mut keys = Vec::new(rt.alloc());
    for i in 0..8192i64 {
        keys.push(number(rt.alloc(), i)?)?;
    }
    Ok(keys)
}

fn time_find(rt: &HostRuntime, index: &Index<'_>, keys: &[Key]) -> io::Result<()> {
    if keys.is_empty() {
        return Ok(());
    }
    let start = rt.thread_cpu_time()?;
    let mut sum = 0usize;
    for i in 0..LOOKS {
        let key = &keys[i.wrapping_mul(7_919) as usize % keys.len()];
        sum = sum.wrapping_add(usize::from(index.postings(key).is_some()));
    }
    let time = micros(rt, start, LOOKS)? * 1000.0;
    println!(rt; "find a key: {time:.0} ns ({sum})")
}

fn time_file(rt: &HostRuntime, schema: &Schema, keys: &[Key], bytes: Vec<u8>) -> io::Result<()> {
    let Ok(file) = File::of(rt.alloc(), schema, bytes) else {
        return Ok(());
    };
    time_view(rt, schema, &file)?;
    let view = file.view(rt.alloc(), schema)?;
    time_stats(rt, &view)?;
    if schema.keys() == 0 {
        return Ok(());
    }
    time_find(rt, view.index(0), keys)
}

fn time_bytes(rt: &HostRuntime, schema: &Schema, keys: &[Key], bytes: Vec<u8>) -> io::Result<()> {
    println!(rt; "bytes: {}", bytes.len())?;
    let mut bytes = bytes;
    time_read(rt, schema, bytes.as_mut_slice())?;
    time_of(rt, schema, bytes.as_slice())?;
    let mut same = Vec::from_slice(rt.alloc(), bytes.as_slice())?;
    time_hash(rt, same.as_mut_slice())?;
    time_file(rt, schema, keys, bytes)
}

fn time_rows(
    rt: &HostRuntime,
    schema: &Schema,
    keys: &[Key],
    rows: &[(u64, Row)],
) -> io::Result<()> {
    if rows.is_empty() || rows.len() > 8192 || !all_fit(schema, rows) {
        return Ok(());
    }
    if !are_numbered(rt.alloc(), rows)? || !are_ordered(rt.alloc(), schema, rows)? {
        return Ok(());
    }
    time_write(rt, schema, rows)?;
    let bytes = write(rt.alloc(), schema, rows)?;
    time_bytes(rt, schema, keys, bytes)
}

fn main(rt: HostRuntime) -> Result<(), Fail> {
    let (schema, rows) = (orders_table(rt.alloc())?, orders(rt.alloc())?);
    let keys = keys(&rt)?;
    time_rows(&rt, &schema, keys.as_slice(), rows.as_slice())?;
    Ok(())
}
PROGRAM
cd "$work/crates/s2_segbench"
rt run | awk '/ us \(| ns \(/ { print } /^bytes/ { printf "%s, %.1f a row\n", $0, $2 / 8192 }'
command -v python3 > /dev/null || exit 0
python3 - <<'HASH'
import hashlib, time
some = bytes(279640)
start = time.process_time()
for _ in range(1000):
    hashlib.sha256(some).digest()
print(f"hash by Python's hashlib: {(time.process_time() - start) * 1000:.1f} us")
HASH
