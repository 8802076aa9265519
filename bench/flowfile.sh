#!/usr/bin/env bash
# Times the flow file: a module of about 8 MB, one of about 16 MB, and one of about 8 MB with ten times the names of the
# second are judged, written, read, and written again. Prints milliseconds and, beside those of the first module, the time
# of each byte: 1 where time is linear in bytes, whatever names they have. Usage: bench/flowfile.sh [small]
. "$(dirname "$0")/common.sh"
wants rt
parts=$(size 1000 1)

rattle_program bench_flowfile PARTS="$parts" TWICE=$((2 * parts)) NAMES=$((20 * parts)) <<'RATTLE'
//! A run of the flow file's reader and writer whose time is taken.
#![tactic(auto)]

use pw_flow::{BinKind, Block, End, ExtKind, FlowFn, FlowGlobal, FlowModule, Op};
use pw_flowfile::{read, write};
use pw_items::Items;
use pw_flow_valid::is_valid;
use pw_value::{Kind, Name, Shape};
use std::alloc::{AllocError, Global};
use std::io;
use std::time::CpuClock;

/// How many objects and functions a module has, and how many blocks each function.
struct Sizes {
    parts: u32,
    blocks: u32,
}

/// A module, one twice as large, and one with twenty times the names of the first.
const MODULES: [Sizes; 3] = [
    Sizes { parts: @PARTS@, blocks: 20 },
    Sizes { parts: @TWICE@, blocks: 20 },
    Sizes { parts: @NAMES@, blocks: 1 },
];

/// The operations of a block.
const OPS: u32 = 32;

/// A letter and a number below 100,000.
fn named(alloc: Global, letter: u8, number: u32) -> Result<Name, AllocError> {
    let mut text = [letter, 0, 0, 0, 0, 0];
    let mut left = number;
    for place in 1..6 {
        text[place] = b'0' + (left % 10) as u8;
        left /= 10;
    }
    Name::new(alloc, &text).map_err(|_| AllocError)
}

fn shape(alloc: Global, text: &[u8]) -> Result<Shape, AllocError> {
    Ok(Shape::new(Vec::from_slice(alloc, text)?))
}

/// One of eight operations, on eight temporaries.
fn op(alloc: Global, parts: u32, number: u32) -> Result<Op, AllocError> {
    let (t, a, b) = (number % 8, number / 3 % 8, number / 5 % 8);
    let part = number % parts.max(1);
    Ok(match number / 8 % 8 {
        0 => Op::Const(t, number),
        1 => Op::Bin(BinKind::Add, t, a, b),
        2 => Op::LoadG(t, named(alloc, b'g', part)?, Kind::W32),
        3 => Op::Load(Kind::W32, t, a),
        4 => Op::StoreG(named(alloc, b'g', part)?, a, Kind::W32),
        5 => Op::Call(
            Some(t),
            named(alloc, b'f', part)?,
            Items::from_vec(Vec::from_slice(alloc, &[a, b])?),
        ),
        6 => Op::Ext(ExtKind::U8, t, a),
        _ => Op::Copy(t, a),
    })
}

fn block(alloc: Global, sizes: &Sizes, number: u32) -> Result<Block, AllocError> {
    let mut ops = Items::new(alloc);
    for i in 0..OPS {
        ops.push(op(alloc, sizes.parts, number.wrapping_mul(37).wrapping_add(i * 7))?)?;
    }
    let end = if number % 2 == 0 {
        End::Return(Some(0))
    } else {
        End::Branch(0, sizes.blocks.saturating_sub(1), 0)
    };
    Ok(Block {
        depth: number % 3,
        ops,
        end,
    })
}

fn function(alloc: Global, sizes: &Sizes, number: u32) -> Result<FlowFn, AllocError> {
    let mut blocks = Items::new(alloc);
    for i in 0..sizes.blocks {
        let at = number.wrapping_mul(sizes.blocks).wrapping_add(i);
        blocks.push(block(alloc, sizes, at)?)?;
    }
    Ok(FlowFn {
        name: named(alloc, b'f', number)?,
        shape: shape(alloc, b"fiii")?,
        params: 2,
        temps: 8,
        slots: Items::from_vec(Vec::from_slice(alloc, &[4u32, 12])?),
        blocks,
    })
}

fn global(alloc: Global, number: u32) -> Result<FlowGlobal, AllocError> {
    Ok(FlowGlobal {
        name: named(alloc, b'g', number)?,
        size: 4,
        shape: shape(alloc, b"i")?,
        kind: Some(Kind::W32),
        volatile: false,
        items: Items::new(alloc),
    })
}

/// A module of these sizes.
fn module(alloc: Global, sizes: &Sizes) -> Result<FlowModule, AllocError> {
    let mut globals = Items::new(alloc);
    let mut functions = Items::new(alloc);
    for number in 0..sizes.parts {
        globals.push(global(alloc, number)?)?;
        functions.push(function(alloc, sizes, number)?)?;
    }
    Ok(FlowModule {
        name: named(alloc, b'm', 0)?,
        globals,
        functions,
        declared: Items::new(alloc),
    })
}

/// Judges a module, writes it, reads it and writes it again; prints its bytes, its functions, whether the second file is
/// the first, and the microseconds of each step.
fn run(rt: &HostRuntime, sizes: &Sizes) -> io::Result<()> {
    let flow = module(rt.alloc(), sizes)?;
    let start = rt.thread_cpu_time()?;
    if !is_valid(rt.alloc(), &flow)? {
        return println!(rt; "the module is not lawful");
    }
    let judged = rt.thread_cpu_time()?;
    let file = write(rt.alloc(), &flow)?;
    let written = rt.thread_cpu_time()?;
    match read(rt.alloc(), &file) {
        Ok(again) => {
            let seen = rt.thread_cpu_time()?;
            let second = write(rt.alloc(), &again)?;
            let end = rt.thread_cpu_time()?;
            let same = second == file;
            println!(rt; "{} {} {same} {} {} {} {}", file.len(), sizes.parts, judged.saturating_sub(start).as_micros(),
                written.saturating_sub(judged).as_micros(), seen.saturating_sub(written).as_micros(), end.saturating_sub(seen).as_micros())
        }
        Err(fault) => println!(rt; "a fault: {fault:?}"),
    }
}

fn main(rt: HostRuntime) -> io::Result<()> {
    for sizes in &MODULES {
        run(&rt, sizes)?;
    }
    Ok(())
}
RATTLE

rattle_run bench_flowfile < /dev/null > "$work/times"
awk '$3 != "true" { print "the second file is another: " $0; exit 1 }
    NR == 1 { for (i = 1; i <= NF; i++) first[i] = $i }
    { printf "%d bytes, %d functions: judged in %.1f ms, written in %.1f, read in %.1f, written again in %.1f; ", $1, $2, $4 / 1e3, $5 / 1e3, $6 / 1e3, $7 / 1e3
      printf "a byte to one of the first module: written %.2f, read %.2f\n", $5 / $1 / (first[5] / first[1]), $6 / $1 / (first[6] / first[1]) }' "$work/times"
