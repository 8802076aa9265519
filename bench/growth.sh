#!/usr/bin/env bash
# Times the second phase over one function of three forms: a chain of `if`s, loops inside one another, and temporaries that
# are all alive at once; 10,000 and 20,000 of each. Prints milliseconds and the exponent by which time grows: 1 where it is
# linear. Usage: bench/growth.sh [small]
. "$(dirname "$0")/common.sh"
wants rt

rattle_program bench_growth LESS="$(size 10000 20)" MORE="$(size 20000 40)" <<'RATTLE'
//! Runs of the second phase whose time is taken.
#![tactic(auto)]

ghost use Rattle.std.specs.Prelude.{IfOk};
ghost use Rattle.pw_flow.specs.ValidFlow.{IsValid};
ghost use Rattle.pw_phase_two.specs.Phases.{AreDirectivesOf};

use pw_db::{Database, Directives, VERSION};
use pw_db_file::read_payload;
use pw_flow::{BinKind, Block, End, FlowFn, FlowModule, Op};
use pw_items::Items;
use pw_flow_valid::is_valid;
use pw_phase_two::{directives_for, phase_two};
use pw_value::{Name, Shape};
use std::alloc::{AllocError, Global};
use std::io;
use std::time::CpuClock;

/// What a function is like.
#[derive(Clone, Copy)]
enum Form {
    Ifs,
    Loops,
    Alive,
}

/// A letter and a number below 100,000.
fn named(alloc: Global, letter: u8, number: u32) -> Result<Name, AllocError> {
    let mut text = [letter, 0, 0, 0, 0, 0];
    let mut left = number;
    for place in 1..6 {
        text[place] = b'0' + (left % 10) as u8;
        left /= 10;
    }
    Name::new(alloc, &text).map_err(|_| AllocError)
}

fn shape(alloc: Global, text: &[u8]) -> Result<Shape, AllocError> {
    Ok(Shape::new(Vec::from_slice(alloc, text)?))
}

/// The blocks of a function of a form, of so many parts.
fn blocks(alloc: Global, form: Form, n: u32) -> Result<Items<Block>, AllocError> {
    let mut blocks = Items::new(alloc);
    match form {
        Form::Ifs => {
            for i in 0..n {
                let t = i % 64 + 2;
                let mut ops = Items::new(alloc);
                ops.push(Op::Const(t, i))?;
                ops.push(Op::Bin(BinKind::Add, 0, 0, t))?;
                blocks.push(Block {
                    depth: 0,
                    ops,
                    end: End::Branch(0, i.saturating_add(1), i.saturating_add(2).min(n)),
                })?;
            }
            blocks.push(Block {
                depth: 0,
                ops: Items::new(alloc),
                end: End::Return(Some(0)),
            })?;
        }
        Form::Loops => {
            for i in 0..n {
                let mut ops = Items::new(alloc);
                ops.push(Op::Bin(BinKind::Add, 1, 1, i % 64))?;
                blocks.push(Block {
                    depth: 1,
                    ops,
                    end: End::Branch(0, i.saturating_add(1), n.saturating_mul(2).saturating_sub(i)),
                })?;
            }
            for i in 0..n {
                let mut ops = Items::new(alloc);
                ops.push(Op::Bin(BinKind::Add, i % 64, 1, 0))?;
                blocks.push(Block {
                    depth: 1,
                    ops,
                    end: End::Jump(n.saturating_sub(1).saturating_sub(i)),
                })?;
            }
            blocks.push(Block {
                depth: 0,
                ops: Items::new(alloc),
                end: End::Return(Some(0)),
            })?;
        }
        Form::Alive => {
            let mut ops = Items::new(alloc);
            for t in 2..n {
                ops.push(Op::Const(t, t))?;
            }
            for t in 2..n {
                ops.push(Op::Bin(BinKind::Add, 0, 0, t))?;
            }
            blocks.push(Block {
                depth: 0,
                ops,
                end: End::Return(Some(0)),
            })?;
        }
    }
    Ok(blocks)
}

/// A module with one function of a form.
fn module(alloc: Global, form: Form, n: u32) -> Result<FlowModule, AllocError> {
    let mut functions = Items::new(alloc);
    functions.push(FlowFn {
        name: named(alloc, b'f', 0)?,
        shape: shape(alloc, b"fiii")?,
        params: 2,
        temps: if let Form::Alive = form { n } else { 66 },
        slots: Items::new(alloc),
        blocks: blocks(alloc, form, n)?,
    })?;
    Ok(FlowModule {
        name: named(alloc, b'm', 0)?,
        globals: Items::new(alloc),
        functions,
        declared: Items::new(alloc),
    })
}

/// Each function of a lawful module without a web: its directives in a database of nothing.
fn directives(alloc: Global, flow: &FlowModule) -> Result<Vec<(Name, Directives)>, AllocError>
    requires { IsValid flow.now }
    ensures { IfOk result (λ all. AreDirectivesOf flow.now all.items) }
{
    let Ok(functions) = read_payload(alloc, &[0; 8]) else {
        return Err(AllocError);
    };
    let db = Database {
        version: VERSION,
        functions,
    };
    directives_for(alloc, flow, &db)
}

/// Makes the object of a module; prints the microseconds that this took.
fn run(rt: &HostRuntime, name: &str, form: Form, n: u32) -> io::Result<()> {
    let flow = module(rt.alloc(), form, n)?;
    if !is_valid(rt.alloc(), &flow)? {
        return println!(rt; "refused {name} {n}");
    }
    let directives = directives(rt.alloc(), &flow)?;
    let start = rt.thread_cpu_time()?;
    let object = phase_two(rt.alloc(), &flow, &directives)?;
    let end = rt.thread_cpu_time()?;
    println!(rt; "{name} {n} {} {}", object.functions.len(), end.saturating_sub(start).as_micros())
}

fn main(rt: HostRuntime) -> io::Result<()> {
    for n in [@LESS@u32, @MORE@] {
        run(&rt, "ifs", Form::Ifs, n)?;
        run(&rt, "loops", Form::Loops, n)?;
        run(&rt, "alive", Form::Alive, n)?;
    }
    Ok(())
}
RATTLE

rattle_run bench_growth < /dev/null > "$work/times"
awk '$1 == "refused" { print "a module is not lawful"; exit 1 }
    $1 in before { printf "%s, %d: %.1f ms; time grows as the power %.2f\n", $1, $2, $4 / 1e3, log($4 / before[$1]) / log($2 / size[$1]) }
    { before[$1] = $4; size[$1] = $2 }' "$work/times"
