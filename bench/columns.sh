#!/usr/bin/env bash
# Times column blocks of 8,192 values of each form: nanoseconds a value to write, to read and to sum.
# The program below is proved and built over a copy of the crates, so that it stands in no gate.
set -eu
top=$(cd "$(dirname "$0")/.." && pwd)
work=${WORK:-$(mktemp -d)}
trap 'rm -rf "$work"' EXIT
mkdir "$work/crates"
for name in s2_value s2_colbytes s2_colplain s2_colruns s2_colenc; do
    mkdir "$work/crates/$name"
    cp -r "$top/crates/$name/src" "$top/crates/$name/specs" "$work/crates/$name/"
    [ ! -d "$top/crates/$name/proofs" ] || cp -r "$top/crates/$name/proofs" "$work/crates/$name/"
done
grep -E '^s2_(value|colbytes|colplain|colruns|colenc):' "$top/crates.txt" > "$work/crates.txt"
echo 's2_colbench: s2_value s2_colbytes s2_colplain s2_colruns s2_colenc' >> "$work/crates.txt"
mkdir -p "$work/crates/s2_colbench/src"
cat > "$work/crates/s2_colbench/src/main.rt" <<'PROGRAM'
//! Times column blocks of 8,192 values of each form.
#![tactic(auto)]

ghost use Rattle.std.specs.Prelude.{◌≡◌, ◌<◌, ◌≤◌, true, length};
ghost use Rattle.std.specs.List.{list_all};
ghost use Rattle.s2_value.specs.Rows.{is_of};

use s2_colenc::{Body, Column, Entries, write_column};
use s2_colplain::{Packed, PlainInt, PlainText};
use s2_colruns::{Codes, RunLens};
use s2_value::{ColType, Txt, Value};
use std::io;
use std::time::{CpuClock, Duration};

const COUNT: u32 = 8192;
const ROUNDS: u32 = 200;

fn number(form: u32, i: u32) -> i64 {
    let x = i64::from(i).wrapping_mul(6364136223846793005).wrapping_add(1442695040888963407);
    match form {
        0 => x,
        1 => x & 0xfff,
        3 => (x & 0xff).wrapping_mul(0x1234_5678_9abc),
        _ => i64::from(i / 64).wrapping_mul(0x1234_5678_9abc),
    }
}

// Processor time, so that other work on the machine counts for little.
fn per_value(start: Duration, rt: &HostRuntime, rounds: u32) -> io::Result<f64> {
    let nanos = rt.thread_cpu_time()?.saturating_sub(start).as_secs_f64() * 1e9;
    Ok(nanos / f64::from(rounds) / f64::from(COUNT))
}

// Sums are of 128 bits, as the engine takes them. Each round sums from another place on, so that no round can stand for another.
#[inline(never)]
fn sum_plain(numbers: &[i64], from: u32) -> i128 {
    let mut sum = 0i128;
    if from as usize > numbers.len() {
        return sum;
    }
    for number in &numbers[from as usize..] {
        sum = sum.wrapping_add(i128::from(*number));
    }
    sum
}

#[inline(never)]
fn sum_ints(ints: &PlainInt<'_>, from: u32) -> i128 {
    let mut sum = 0i128;
    for i in from..ints.len() {
        sum = sum.wrapping_add(i128::from(ints.at(i)));
    }
    sum
}

#[inline(never)]
fn sum_packed(ints: &Packed<'_>, from: u32) -> i128 {
    let mut sum = 0i128;
    for i in from..ints.len() {
        sum = sum.wrapping_add(i128::from(ints.at(i)));
    }
    sum
}

fn entry(vals: &Entries<'_>, i: u32) -> i64 {
    if i >= vals.len() {
        return 0;
    }
    match vals {
        Entries::Ints(ints) => ints.at(i),
        Entries::Texts(texts) => texts.at(i).len() as i64,
    }
}

#[inline(never)]
fn sum_texts(texts: &PlainText<'_>, from: u32) -> i128 {
    let mut sum = 0i128;
    for i in from..texts.len() {
        sum = sum.wrapping_add(texts.at(i).len() as i128);
    }
    sum
}

#[inline(never)]
fn sum_codes(vals: &Entries<'_>, codes: &Codes<'_>, from: u32) -> i128 {
    let mut sum = 0i128;
    for i in from..codes.len() {
        sum = sum.wrapping_add(i128::from(entry(vals, u32::from(codes.at(i)))));
    }
    sum
}

#[inline(never)]
fn sum_runs(lens: &RunLens<'_>, vals: &Entries<'_>, from: u32) -> i128 {
    let mut sum = 0i128;
    for i in from..lens.count() {
        sum = sum.wrapping_add(i128::from(lens.at(i)).wrapping_mul(i128::from(entry(vals, i))));
    }
    sum
}

// The same sums at 64 bits, where a sum may wrap.
#[inline(never)]
fn sum_plain_64(numbers: &[i64], from: u32) -> i64 {
    let mut sum = 0i64;
    if from as usize > numbers.len() {
        return sum;
    }
    for number in &numbers[from as usize..] {
        sum = sum.wrapping_add(*number);
    }
    sum
}

#[inline(never)]
fn sum_ints_64(ints: &PlainInt<'_>, from: u32) -> i64 {
    let mut sum = 0i64;
    for i in from..ints.len() {
        sum = sum.wrapping_add(ints.at(i));
    }
    sum
}

#[inline(never)]
fn sum_packed_64(ints: &Packed<'_>, from: u32) -> i64 {
    let mut sum = 0i64;
    for i in from..ints.len() {
        sum = sum.wrapping_add(ints.at(i));
    }
    sum
}

// The sum of a body of plain or packed numbers at 64 bits.
fn sum_body_64(column: &Column<'_>, from: u32) -> i64 {
    match column.body() {
        Body::Ints(ints) => sum_ints_64(ints, from),
        Body::Packed(ints) => sum_packed_64(ints, from),
        _ => 0,
    }
}

// The sum by the parts of the body, as a scan goes.
fn sum_body(column: &Column<'_>, from: u32) -> i128 {
    match column.body() {
        Body::Ints(ints) => sum_ints(ints, from),
        Body::Packed(ints) => sum_packed(ints, from),
        Body::Texts(texts) => sum_texts(texts, from),
        Body::Dictionary(vals, codes) => sum_codes(vals, codes, from),
        Body::Runs(lens, vals) => sum_runs(lens, vals, from),
    }
}

fn size_of(value: &Value) -> i64 {
    match value {
        Value::Int(number) => *number,
        Value::Text(text) => text.bytes().len() as i64,
    }
}

fn is_of(kind: ColType, val: &Value) -> bool
    ensures { result ≡ is_of kind val.now }
{
    match (kind, val) {
        (ColType::Int, Value::Int(_)) => true,
        (ColType::Text, Value::Text(_)) => true,
        _ => false,
    }
}

fn are_of(kind: ColType, vals: &[Value]) -> bool
    ensures { result ≡ list_all (is_of kind) vals.now }
{
    vals.iter().all(|val| is_of(kind, val))
}

fn time_write(rt: &HostRuntime, kind: ColType, vals: &[Value]) -> io::Result<f64>
    requires some { 0 < length vals.now }
    requires few { length vals.now ≤ 8192 }
    requires kind { list_all (is_of kind) vals.now ≡ true }
{
    let start = rt.thread_cpu_time()?;
    let mut bytes = 0usize;
    for _ in 0..10u32 {
        bytes = bytes.wrapping_add(write_column(rt.alloc(), kind, vals)?.len());
    }
    let time = per_value(start, rt, 10)?;
    println!(rt; "  ({bytes})")?;
    Ok(time)
}

// The block's first byte is written in each round, so that no round can stand for another.
fn time_read(rt: &HostRuntime, kind: ColType, block: &mut [u8]) -> io::Result<f64> {
    let nothing = (block.len() / 16_777_216 % 256) as u8;
    let start = rt.thread_cpu_time()?;
    let mut read = 0u32;
    for _ in 0..ROUNDS {
        if let Some(tag) = block.first_mut() {
            *tag = tag.wrapping_add(nothing);
        }
        read = read.wrapping_add(u32::from(Column::read(kind, COUNT, block).is_ok()));
    }
    let time = per_value(start, rt, ROUNDS)?;
    println!(rt; "  ({read})")?;
    Ok(time)
}

fn time_scan(rt: &HostRuntime, column: &Column<'_>) -> io::Result<f64> {
    let start = rt.thread_cpu_time()?;
    let mut sum = 0i128;
    for round in 0..ROUNDS {
        sum = sum.wrapping_add(sum_body(column, round % 64));
    }
    let time = per_value(start, rt, ROUNDS)?;
    println!(rt; "  ({sum})")?;
    Ok(time)
}

#[inline(never)]
fn sum_values(rt: &HostRuntime, kind: ColType, block: &[u8], from: u32) -> io::Result<i128> {
    let Ok(column) = Column::read(kind, COUNT, block) else {
        return Ok(0);
    };
    let mut sum = 0i128;
    for i in from..COUNT {
        let value = column.at(rt.alloc(), i)?;
        sum = sum.wrapping_add(i128::from(size_of(&value)));
    }
    Ok(sum)
}

#[inline(never)]
fn sum_values_64(rt: &HostRuntime, kind: ColType, block: &[u8], from: u32) -> io::Result<i64> {
    let Ok(column) = Column::read(kind, COUNT, block) else {
        return Ok(0);
    };
    let mut sum = 0i64;
    for i in from..COUNT {
        let value = column.at(rt.alloc(), i)?;
        sum = sum.wrapping_add(size_of(&value));
    }
    Ok(sum)
}

fn time_plain_64(rt: &HostRuntime, numbers: &[i64]) -> io::Result<f64> {
    let start = rt.thread_cpu_time()?;
    let mut sum = 0i64;
    for round in 0..ROUNDS {
        sum = sum.wrapping_add(sum_plain_64(numbers, round % 64));
    }
    let time = per_value(start, rt, ROUNDS)?;
    println!(rt; "  ({sum})")?;
    Ok(time)
}

fn time_body_64(rt: &HostRuntime, column: &Column<'_>) -> io::Result<f64> {
    let start = rt.thread_cpu_time()?;
    let mut sum = 0i64;
    for round in 0..ROUNDS {
        sum = sum.wrapping_add(sum_body_64(column, round % 64));
    }
    let time = per_value(start, rt, ROUNDS)?;
    println!(rt; "  ({sum})")?;
    Ok(time)
}

fn time_at_64(rt: &HostRuntime, kind: ColType, block: &[u8]) -> io::Result<f64> {
    let start = rt.thread_cpu_time()?;
    let mut sum = 0i64;
    for round in 0..ROUNDS {
        sum = sum.wrapping_add(sum_values_64(rt, kind, block, round % 64)?);
    }
    let time = per_value(start, rt, ROUNDS)?;
    println!(rt; "  ({sum})")?;
    Ok(time)
}

// The sums of numbers at 64 bits: the plain array, the body where it is of numbers, and through `at`.
fn measure_64(rt: &HostRuntime, name: &str, numbers: &[i64], vals: &[Value]) -> io::Result<()> {
    if vals.is_empty() || vals.len() > 8192 || !are_of(ColType::Int, vals) {
        return Ok(());
    }
    let block = write_column(rt.alloc(), ColType::Int, vals)?;
    let Ok(column) = Column::read(ColType::Int, COUNT, block.as_slice()) else {
        return Ok(());
    };
    let plain = time_plain_64(rt, numbers)?;
    let body = time_body_64(rt, &column)?;
    let at = time_at_64(rt, ColType::Int, block.as_slice())?;
    println!(rt; "{name}, sums of 64 bits: plain array {plain:.2}, by the body {body:.2}, through at {at:.2}")?;
    Ok(())
}

// Reading once is in it. Runs and texts take long.
fn time_at(rt: &HostRuntime, column: &Column<'_>, kind: ColType, block: &[u8]) -> io::Result<f64> {
    let rounds = match column.body() {
        Body::Ints(_) | Body::Packed(_) => ROUNDS,
        _ => 10,
    };
    let start = rt.thread_cpu_time()?;
    let mut sum = 0i128;
    for round in 0..rounds {
        sum = sum.wrapping_add(sum_values(rt, kind, block, round % 64)?);
    }
    let time = per_value(start, rt, rounds)?;
    println!(rt; "  ({sum})")?;
    Ok(time)
}

fn measure(rt: &HostRuntime, name: &str, kind: ColType, vals: &[Value]) -> io::Result<()> {
    if vals.is_empty() || vals.len() > 8192 || !are_of(kind, vals) {
        return Ok(());
    }
    let write = time_write(rt, kind, vals)?;
    let mut block = write_column(rt.alloc(), kind, vals)?;
    let read = time_read(rt, kind, block.as_mut_slice())?;
    let Ok(column) = Column::read(kind, COUNT, block.as_slice()) else {
        return Ok(());
    };
    let scan = time_scan(rt, &column)?;
    let at = time_at(rt, &column, kind, block.as_slice())?;
    println!(rt; "{name}: {} bytes, write {write:.2}, read {read:.2}, sum by the body {scan:.2}, sum through at {at:.2}", block.len())?;
    Ok(())
}

fn time_plain(rt: &HostRuntime, numbers: &[i64]) -> io::Result<f64> {
    let start = rt.thread_cpu_time()?;
    let mut sum = 0i128;
    for round in 0..ROUNDS {
        sum = sum.wrapping_add(sum_plain(numbers, round % 64));
    }
    let time = per_value(start, rt, ROUNDS)?;
    println!(rt; "  ({sum})")?;
    Ok(time)
}

fn measure_ints(rt: &HostRuntime, name: &str, form: u32) -> io::Result<()> {
    let mut vals = Vec::new(rt.alloc());
    let mut numbers = Vec::new(rt.alloc());
    for i in 0..COUNT {
        vals.push(Value::Int(number(form, i)))?;
        numbers.push(number(form, i))?;
    }
    let plain = time_plain(rt, numbers.as_slice())?;
    println!(rt; "plain array: sum {plain:.2}")?;
    measure(rt, name, ColType::Int, vals.as_slice())?;
    if form < 2 {
        measure_64(rt, name, numbers.as_slice(), vals.as_slice())?;
    }
    Ok(())
}

fn measure_texts(rt: &HostRuntime) -> io::Result<()> {
    let mut vals = Vec::new(rt.alloc());
    for i in 0..COUNT {
        let name = format!(in rt.alloc(); "{}", number(0, i))?;
        if let Ok(text) = Txt::new(rt.alloc(), name.as_bytes()) {
            vals.push(Value::Text(text))?;
        }
    }
    measure(rt, "plain texts", ColType::Text, vals.as_slice())
}

fn main(rt: HostRuntime) -> io::Result<()> {
    measure_ints(&rt, "plain numbers", 0)?;
    measure_ints(&rt, "packed, 12 bits", 1)?;
    measure_texts(&rt)?;
    measure_ints(&rt, "dictionary of 256", 3)?;
    measure_ints(&rt, "runs of 64", 4)
}
PROGRAM
cd "$work/crates/s2_colbench"
rt run | grep ', write \|plain array'
