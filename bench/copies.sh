#!/bin/sh
# Times copies of lists of values of several lengths, over the libraries of this tree.
# A copy shares the items, so its time doesn't depend on how many there are.
# Outside the gate: the times are those of this machine at this moment.
top=$(CDPATH= cd -- "$(dirname -- "$0")/.." && pwd) || exit 1
work=$(mktemp -d) || exit 1
trap 'rm -rf "$work"' EXIT
mkdir -p "$work/crates/copies/src"
for crate in rd_base rd_value; do
    cp -a "$top/crates/$crate" "$work/crates/"
done
grep -E '^rd_(base|value):' "$top/crates.txt" >"$work/crates.txt"
echo 'copies: rd_base rd_value anyhow' >>"$work/crates.txt"
cp "$top/HANDLES" "$work/"

cat >"$work/crates/copies/src/main.rt" <<'END'
//! How long a copy of a list takes.
#![tactic(auto)]

use anyhow::Result;
use rd_base::{Copies, OutOfMemory};
use rd_value::value::{Value, Values};
use std::alloc::Global;
use std::time::Instant;

const COPIES: u32 = 100_000;

fn list_of(alloc: Global, count: u32) -> Result<Value, OutOfMemory> {
    let mut items = Values::new(alloc);
    for i in 0..count {
        items.push(alloc, Value::Int(i64::from(i)))?;
    }
    Ok(Value::List(items))
}

fn copy_often(alloc: Global, value: &Value) -> Result<u32, OutOfMemory> {
    let mut lists: u32 = 0;
    for _ in 0..COPIES {
        if let Value::List(_) = value.copy(alloc)? {
            lists = lists.saturating_add(1);
        }
    }
    Ok(lists)
}

fn main(rt: HostRuntime) -> Result<()> {
    let alloc = rt.alloc();
    for count in [10, 1_000, 100_000] {
        let Ok(list) = list_of(alloc, count) else {
            return Ok(());
        };
        let start = Instant::now(&rt)?;
        let lists = copy_often(alloc, &list).unwrap_or(0);
        let nanos = start.elapsed(&rt)?.as_nanos() / u128::from(COPIES);
        println!(rt; "list of {count} ints: {nanos} ns a copy ({lists} copies)")?;
    }
    Ok(())
}
END
cd "$work/crates/copies" && rt run 2>/dev/null
