#!/usr/bin/env bash
# Times the optimiser of flow graphs beside lowering: modules of 25, 50 and 100 functions, of which each is one `if` with 400
# `else if`s on its parameter, 2,800 operations in some 1,200 blocks; and one of 800 functions with 50 of them, which has as
# many operations as the third. Prints milliseconds, the quotients of the optimiser's by lowering's, and the exponent by which
# the optimiser's time grows: 1 where it is linear. Usage: bench/opt.sh [small]
. "$(dirname "$0")/common.sh"
wants rt

rattle_program bench_opt FEW="$(size 25 1)" MANY="$(size 800 4)" ARMS="$(size 400 8)" LESS="$(size 50 4)" <<'RATTLE'
//! Lowers modules and optimises their flow graphs; prints of each the operations before and behind, and the microseconds that
//! both took.
#![tactic(auto)]

use pw_flow::FlowModule;
use pw_flow_valid::is_valid;
use pw_lstmt::lower_module;
use pw_opt::optimise;
use pw_typed::{
    Arm, BinaryOperator, Local, Symbol, TExpr, TForm, TFunction, TModule, TStmt, TStmtForm,
};
use pw_types::{CType, IntKind, QType, Signature, Types};
use pw_value::Name;
use std::alloc::{AllocError, Global};
use std::io;
use std::time::CpuClock;

/// How many functions a module has, and how many arms each.
#[derive(Clone, Copy)]
struct Sizes {
    functions: u32,
    arms: u32,
}

/// Modules: the second and the third with twice and four times the functions of the first, and the fourth with smaller ones.
const MODULES: [Sizes; 4] = [
    Sizes { functions: @FEW@, arms: @ARMS@ },
    Sizes { functions: 2 * @FEW@, arms: @ARMS@ },
    Sizes { functions: 4 * @FEW@, arms: @ARMS@ },
    Sizes { functions: @MANY@, arms: @LESS@ },
];

/// A letter and a number below 100,000.
fn named(alloc: Global, letter: u8, number: u32) -> Result<Name, AllocError> {
    let mut text = [letter, 0, 0, 0, 0, 0];
    let mut left = number;
    for place in 1..6 {
        text[place] = b'0' + (left % 10) as u8;
        left /= 10;
    }
    Name::new(alloc, &text).map_err(|_| AllocError)
}

fn plain(ty: CType) -> QType {
    QType {
        ty,
        constant: false,
        volatile: false,
    }
}

fn int(form: TForm) -> TExpr {
    TExpr {
        token: 1,
        ty: plain(CType::Int(IntKind::Int)),
        form,
    }
}

/// An operator on `n` and 1.
fn with_one(alloc: Global, operator: BinaryOperator) -> Result<TExpr, AllocError> {
    let first = Box::new(alloc, int(TForm::Local(0)))?;
    let one = Box::new(alloc, int(TForm::Number(1)))?;
    Ok(int(TForm::Binary(operator, first, one)))
}

/// `n = n + 1;`
fn more(alloc: Global) -> Result<TStmt, AllocError> {
    let to = Box::new(alloc, int(TForm::Local(0)))?;
    let sum = Box::new(alloc, with_one(alloc, BinaryOperator::Add)?)?;
    Ok(TStmt {
        token: 1,
        form: TStmtForm::Expr(int(TForm::Assign(to, sum))),
    })
}

/// `if (n < 1) n = n + 1; else if (n < 1) n = n + 1; ..`
fn chosen(alloc: Global, count: u32) -> Result<TStmt, AllocError> {
    let mut arms = Vec::new(alloc);
    for _ in 0..count {
        arms.push(Arm {
            token: 1,
            condition: with_one(alloc, BinaryOperator::Less)?,
            body: more(alloc)?,
        })?;
    }
    Ok(TStmt {
        token: 1,
        form: TStmtForm::If(arms, None),
    })
}

fn body(alloc: Global, arms: u32) -> Result<TStmt, AllocError> {
    let mut items = Vec::new(alloc);
    items.push(chosen(alloc, arms)?)?;
    Ok(TStmt {
        token: 1,
        form: TStmtForm::Block {
            first: 0,
            count: 0,
            initialisers: Vec::new(alloc),
            items,
        },
    })
}

fn function_type(alloc: Global) -> Result<QType, AllocError> {
    let mut params = Vec::new(alloc);
    params.push(plain(CType::Int(IntKind::Int)))?;
    let signature = Signature {
        result: plain(CType::Void),
        params,
    };
    Ok(plain(CType::Function(Box::new(alloc, signature)?)))
}

/// The parameter `n`.
fn parameters(alloc: Global) -> Result<Vec<Local>, AllocError> {
    let mut locals = Vec::new(alloc);
    locals.push(Local {
        name: named(alloc, b'n', 0)?,
        ty: plain(CType::Int(IntKind::Int)),
        writable: true,
    })?;
    Ok(locals)
}

fn function(alloc: Global, number: u32, arms: u32) -> Result<TFunction, AllocError> {
    Ok(TFunction {
        name: Symbol::External(named(alloc, b'f', number)?),
        token: 1,
        ty: function_type(alloc)?,
        params: 1,
        locals: parameters(alloc)?,
        labels: 0,
        named: Vec::new(alloc),
        body: body(alloc, arms)?,
    })
}

fn module(alloc: Global, sizes: &Sizes) -> Result<TModule, AllocError> {
    let mut functions = Vec::new(alloc);
    for number in 0..sizes.functions {
        functions.push(function(alloc, number, sizes.arms)?)?;
    }
    Ok(TModule {
        types: Types::new(alloc),
        globals: Vec::new(alloc),
        functions,
        declared: Vec::new(alloc),
    })
}

/// How many operations a module has.
fn operations(flow: &FlowModule) -> usize {
    let mut count = 0usize;
    for function in flow.functions.as_slice() {
        for block in function.blocks.as_slice() {
            count = count.saturating_add(block.ops.as_slice().len());
        }
    }
    count
}

/// Optimises a module and tells its operations before and behind, and the time that lowering and this took.
fn optimised(rt: HostRuntime, flow: &FlowModule, lowered: u128) -> io::Result<()> {
    let alloc = rt.alloc();
    if !is_valid(alloc, flow)? {
        println!(rt; "refused")?;
        return Ok(());
    }
    let start = rt.thread_cpu_time()?;
    let new = optimise(alloc, flow)?;
    let end = rt.thread_cpu_time()?;
    let time = end.saturating_sub(start).as_micros();
    println!(rt; "{} {} {lowered} {time}", operations(flow), operations(&new))?;
    Ok(())
}

/// Lowers a module and optimises it.
fn run(rt: HostRuntime, sizes: &Sizes) -> io::Result<()> {
    let alloc = rt.alloc();
    let tree = module(alloc, sizes)?;
    let name = named(alloc, b'm', 0)?;
    let start = rt.thread_cpu_time()?;
    let answer = lower_module(alloc, &name, &tree);
    let end = rt.thread_cpu_time()?;
    let time = end.saturating_sub(start).as_micros();
    match answer {
        Ok(flow) => optimised(rt, &flow, time)?,
        Err(_) => println!(rt; "refused")?,
    }
    Ok(())
}

fn main(rt: HostRuntime) -> io::Result<()> {
    for sizes in &MODULES {
        run(rt, sizes)?;
    }
    Ok(())
}
RATTLE

rattle_run bench_opt < /dev/null > "$work/times"
awk 'BEGIN { split("a module|twice its functions|four times its functions|smaller functions", what, "|") }
    $1 == "refused" { print "a module is refused"; exit 1 }
    { before[NR] = $1; time[NR] = $4
      printf "%s: %d operations, %d behind, lowered in %.1f ms, optimised in %.1f ms, quotient %.2f\n", what[NR], $1, $2, $3 / 1e3, $4 / 1e3, $4 / $3 }
    END { if (time[1] > 0) printf "exponent %.2f\n", log(time[3] / time[1]) / log(before[3] / before[1]) }' "$work/times"
