#!/bin/sh
# Times writing and reading of a value of 1 MiB of small ints, and of one long text, beside SHA-256 of the same bytes.
# Outside the gate: the times are those of this machine at this moment.
top=$(CDPATH= cd -- "$(dirname -- "$0")/.." && pwd) || exit 1
work=$(mktemp -d) || exit 1
trap 'rm -rf "$work"' EXIT
mkdir -p "$work/crates/bencode_times/src"
for crate in rd_base rd_value rd_bencode; do
    cp -a "$top/crates/$crate" "$work/crates/"
done
grep -E '^rd_(base|value|bencode):' "$top/crates.txt" >"$work/crates.txt"
echo 'bencode_times: rd_base rd_value rd_bencode anyhow' >>"$work/crates.txt"
cp "$top/HANDLES" "$work/"

cat >"$work/crates/bencode_times/src/main.rt" <<'END'
//! How fast canonical bytes are written, read and hashed.
#![tactic(auto)]

use anyhow::Result;
use rd_base::{Bytes, OutOfMemory, Text};
use rd_bencode::{digest_bytes, read_value, write_value};
use rd_value::value::{Value, Values};
use std::alloc::Global;
use std::time::Instant;

const ROUNDS: u32 = 50;

fn small_ints(alloc: Global) -> Result<Value, OutOfMemory> {
    let mut items = Values::new(alloc);
    for i in 0..349_520 {
        items.push(alloc, Value::Int(i64::from(i % 10)))?;
    }
    Ok(Value::List(items))
}

fn long_text(alloc: Global) -> Result<Value, OutOfMemory> {
    let mut text = String::new(alloc);
    for _ in 0..131_071 {
        text.push_str("redun ab")?;
    }
    Ok(Value::Text(Text::from_string(alloc, text)?))
}

fn write_often(alloc: Global, value: &Value) -> u32 {
    let mut written: u32 = 0;
    for _ in 0..ROUNDS {
        if write_value(alloc, value).is_ok() {
            written = written.saturating_add(1);
        }
    }
    written
}

fn read_often(alloc: Global, bytes: &[u8]) -> u32 {
    let mut read: u32 = 0;
    for _ in 0..ROUNDS {
        if read_value(alloc, bytes).is_ok() {
            read = read.saturating_add(1);
        }
    }
    read
}

fn hash_often(bytes: &[u8]) -> u32 {
    let first = digest_bytes(bytes);
    let mut hashed: u32 = 0;
    for _ in 0..ROUNDS {
        if digest_bytes(bytes) == first {
            hashed = hashed.saturating_add(1);
        }
    }
    hashed
}

fn show(rt: &HostRuntime, what: &str, rounds: u32, size: usize, nanos: u128) -> Result<()> {
    let bytes = (rounds as u128).saturating_mul(size as u128);
    let speed = bytes.saturating_mul(1000) / nanos.max(1);
    println!(rt; "  {what}: {speed} MB/s")?;
    Ok(())
}

fn show_times(rt: &HostRuntime, value: &Value, bytes: &Bytes) -> Result<()> {
    let alloc = rt.alloc();
    let size = bytes.as_slice().len();
    let start = Instant::now(rt)?;
    let rounds = write_often(alloc, value);
    show(rt, "write", rounds, size, start.elapsed(rt)?.as_nanos())?;
    let start = Instant::now(rt)?;
    let rounds = read_often(alloc, bytes.as_slice());
    show(rt, "read", rounds, size, start.elapsed(rt)?.as_nanos())?;
    let start = Instant::now(rt)?;
    let rounds = hash_often(bytes.as_slice());
    show(rt, "SHA-256", rounds, size, start.elapsed(rt)?.as_nanos())
}

fn main(rt: HostRuntime) -> Result<()> {
    let alloc = rt.alloc();
    for what in ["small ints", "one long text"] {
        let made = if what == "small ints" {
            small_ints(alloc)
        } else {
            long_text(alloc)
        };
        let Ok(value) = made else {
            return Ok(());
        };
        let Ok(bytes) = write_value(alloc, &value) else {
            return Ok(());
        };
        let size = bytes.as_slice().len();
        println!(rt; "{what}, {size} bytes")?;
        show_times(&rt, &value, &bytes)?;
    }
    Ok(())
}
END
cd "$work/crates/bencode_times" && rt run 2>/dev/null
