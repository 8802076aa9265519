#!/usr/bin/env bash
# Times the second phase: 100,000 operations in one function, 128,000 in 1,000 functions, and 1,000,000 in one function.
# Prints milliseconds and, beside those of the first module, the time of each operation: 1 where time is linear in
# operations, however they lie in functions. Usage: bench/phase2.sh [small]
. "$(dirname "$0")/common.sh"
wants rt

rattle_program bench_phase2 BLOCKS="$(size 3125 4)" PARTS="$(size 1000 2)" MANY="$(size 31250 40)" <<'RATTLE'
//! Runs of the second phase whose time is taken.
#![tactic(auto)]

ghost use Rattle.std.specs.Prelude.{IfOk};
ghost use Rattle.pw_flow.specs.ValidFlow.{IsValid};
ghost use Rattle.pw_phase_two.specs.Phases.{AreDirectivesOf};

use pw_db::{Database, Directives, VERSION};
use pw_db_file::read_payload;
use pw_flow::{BinKind, Block, End, ExtKind, FlowFn, FlowGlobal, FlowModule, Op};
use pw_items::Items;
use pw_flow_valid::is_valid;
use pw_phase_two::{directives_for, phase_two};
use pw_value::{Kind, Name, Shape};
use std::alloc::{AllocError, Global};
use std::io;
use std::time::CpuClock;

/// How many objects and functions a module has, and how many blocks each function.
struct Sizes {
    parts: u32,
    blocks: u32,
}

const MODULES: [Sizes; 3] = [
    Sizes { parts: 1, blocks: @BLOCKS@ },
    Sizes { parts: @PARTS@, blocks: 4 },
    Sizes { parts: 1, blocks: @MANY@ },
];

/// The operations of a block.
const OPS: u32 = 32;

/// A letter and a number below 100,000.
fn named(alloc: Global, letter: u8, number: u32) -> Result<Name, AllocError> {
    let mut text = [letter, 0, 0, 0, 0, 0];
    let mut left = number;
    for place in 1..6 {
        text[place] = b'0' + (left % 10) as u8;
        left /= 10;
    }
    Name::new(alloc, &text).map_err(|_| AllocError)
}

fn shape(alloc: Global, text: &[u8]) -> Result<Shape, AllocError> {
    Ok(Shape::new(Vec::from_slice(alloc, text)?))
}

/// One of eight operations, on eight temporaries.
fn op(alloc: Global, parts: u32, number: u32) -> Result<Op, AllocError> {
    let (t, a, b) = (number % 8, number / 3 % 8, number / 5 % 8);
    let part = number % parts.max(1);
    Ok(match number / 8 % 8 {
        0 => Op::Const(t, number),
        1 => Op::Bin(BinKind::Add, t, a, b),
        2 => Op::LoadG(t, named(alloc, b'g', part)?, Kind::W32),
        3 => Op::Load(Kind::W32, t, a),
        4 => Op::StoreG(named(alloc, b'g', part)?, a, Kind::W32),
        5 => Op::Call(
            Some(t),
            named(alloc, b'f', part)?,
            Items::from_vec(Vec::from_slice(alloc, &[a, b])?),
        ),
        6 => Op::Ext(ExtKind::U8, t, a),
        _ => Op::Copy(t, a),
    })
}

fn block(alloc: Global, sizes: &Sizes, number: u32) -> Result<Block, AllocError> {
    let mut ops = Items::new(alloc);
    for i in 0..OPS {
        ops.push(op(alloc, sizes.parts, number.wrapping_mul(37).wrapping_add(i * 7))?)?;
    }
    let end = if number % 2 == 0 {
        End::Return(Some(0))
    } else {
        End::Branch(0, sizes.blocks.saturating_sub(1), 0)
    };
    Ok(Block {
        depth: number % 3,
        ops,
        end,
    })
}

fn function(alloc: Global, sizes: &Sizes, number: u32) -> Result<FlowFn, AllocError> {
    let mut blocks = Items::new(alloc);
    for i in 0..sizes.blocks {
        let at = number.wrapping_mul(sizes.blocks).wrapping_add(i);
        blocks.push(block(alloc, sizes, at)?)?;
    }
    Ok(FlowFn {
        name: named(alloc, b'f', number)?,
        shape: shape(alloc, b"fiii")?,
        params: 2,
        temps: 8,
        slots: Items::from_vec(Vec::from_slice(alloc, &[4u32, 12])?),
        blocks,
    })
}

fn global(alloc: Global, number: u32) -> Result<FlowGlobal, AllocError> {
    Ok(FlowGlobal {
        name: named(alloc, b'g', number)?,
        size: 4,
        shape: shape(alloc, b"i")?,
        kind: Some(Kind::W32),
        volatile: false,
        items: Items::new(alloc),
    })
}

/// A module of these sizes.
fn module(alloc: Global, sizes: &Sizes) -> Result<FlowModule, AllocError> {
    let mut globals = Items::new(alloc);
    let mut functions = Items::new(alloc);
    for number in 0..sizes.parts {
        globals.push(global(alloc, number)?)?;
        functions.push(function(alloc, sizes, number)?)?;
    }
    Ok(FlowModule {
        name: named(alloc, b'm', 0)?,
        globals,
        functions,
        declared: Items::new(alloc),
    })
}

/// Each function of a lawful module without a web: its directives in a database of nothing.
fn directives(alloc: Global, flow: &FlowModule) -> Result<Vec<(Name, Directives)>, AllocError>
    requires { IsValid flow.now }
    ensures { IfOk result (λ all. AreDirectivesOf flow.now all.items) }
{
    let Ok(functions) = read_payload(alloc, &[0; 8]) else {
        return Err(AllocError);
    };
    let db = Database {
        version: VERSION,
        functions,
    };
    directives_for(alloc, flow, &db)
}

/// Makes the object of a module; prints its functions, operations and words, and the microseconds that this took.
fn run(rt: &HostRuntime, sizes: &Sizes) -> io::Result<()> {
    let flow = module(rt.alloc(), sizes)?;
    if !is_valid(rt.alloc(), &flow)? {
        return println!(rt; "refused");
    }
    let directives = directives(rt.alloc(), &flow)?;
    let start = rt.thread_cpu_time()?;
    let object = phase_two(rt.alloc(), &flow, &directives)?;
    let end = rt.thread_cpu_time()?;
    let mut words = 0usize;
    for f in object.functions.as_slice() {
        words = f.words.len().wrapping_add(words);
    }
    println!(rt; "{} {} {words} {}", sizes.parts, sizes.parts.wrapping_mul(sizes.blocks).wrapping_mul(OPS), end.saturating_sub(start).as_micros())
}

fn main(rt: HostRuntime) -> io::Result<()> {
    for sizes in &MODULES {
        run(&rt, sizes)?;
    }
    Ok(())
}
RATTLE

rattle_run bench_phase2 < /dev/null > "$work/times"
awk '$1 == "refused" { print "a module is not lawful"; exit 1 }
    { if (NR == 1) first = $4 / $2
      printf "%d functions, %d operations, %d words: %.1f ms, an operation to one of the first module %.2f\n", $1, $2, $3, $4 / 1e3, $4 / $2 / first }' "$work/times"
