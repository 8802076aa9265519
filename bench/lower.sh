#!/usr/bin/env bash
# Times lowering: typed trees of modules of 200,000 and 400,000 tokens, of which each function has 3,300 statements
# `n = n + 1;`, and of one of 200,000 tokens whose functions are one `if` with 1,500 `else if`s. Prints milliseconds and
# their quotients by the first. Usage: bench/lower.sh [small]
. "$(dirname "$0")/common.sh"
wants rt

rattle_program bench_lower STATEMENTS="$(size 3300 33)" ARMS="$(size 1500 15)" <<'RATTLE'
//! Lowers modules; prints the functions of each, and the microseconds that lowering it took.
#![tactic(auto)]

use pw_lstmt::lower_module;
use pw_typed::{
    Arm, BinaryOperator, Declared, Symbol, TExpr, TForm, TFunction, TModule, TStmt, TStmtForm,
};
use pw_types::{CType, IntKind, QType, Signature, Types};
use pw_value::Name;
use std::alloc::{AllocError, Global};
use std::io;
use std::time::CpuClock;

/// How many functions a module has, and whether each is one `if` with its `else if`s.
struct Sizes {
    functions: u32,
    is_chosen: bool,
}

/// Modules, the second with twice the functions of the first, the third with other statements.
const MODULES: [Sizes; 3] = [
    Sizes { functions: 10, is_chosen: false },
    Sizes { functions: 20, is_chosen: false },
    Sizes { functions: 10, is_chosen: true },
];

/// The statements of a function: `n = n + 1;` of 6 tokens, or `else if (n < 1) n = n + 1;` of 13.
const STATEMENTS: u32 = @STATEMENTS@;
const ARMS: u32 = @ARMS@;

/// A letter and a number below 100,000.
fn named(alloc: Global, letter: u8, number: u32) -> Result<Name, AllocError> {
    let mut text = [letter, 0, 0, 0, 0, 0];
    let mut left = number;
    for place in 1..6 {
        text[place] = b'0' + (left % 10) as u8;
        left /= 10;
    }
    Name::new(alloc, &text).map_err(|_| AllocError)
}

fn plain(ty: CType) -> QType {
    QType {
        ty,
        constant: false,
        volatile: false,
    }
}

fn int(form: TForm) -> TExpr {
    TExpr {
        token: 1,
        ty: plain(CType::Int(IntKind::Int)),
        form,
    }
}

fn n(alloc: Global) -> Result<TExpr, AllocError> {
    Ok(int(TForm::Global(Symbol::External(named(alloc, b'n', 0)?))))
}

/// An operator on `n` and 1.
fn with_one(alloc: Global, operator: BinaryOperator) -> Result<TExpr, AllocError> {
    let first = Box::new(alloc, n(alloc)?)?;
    let one = Box::new(alloc, int(TForm::Number(1)))?;
    Ok(int(TForm::Binary(operator, first, one)))
}

/// `n = n + 1;`
fn more(alloc: Global) -> Result<TStmt, AllocError> {
    let to = Box::new(alloc, n(alloc)?)?;
    let sum = Box::new(alloc, with_one(alloc, BinaryOperator::Add)?)?;
    Ok(TStmt {
        token: 1,
        form: TStmtForm::Expr(int(TForm::Assign(to, sum))),
    })
}

/// `if (n < 1) n = n + 1; else if (n < 1) n = n + 1; ..`
fn chosen(alloc: Global) -> Result<TStmt, AllocError> {
    let mut arms = Vec::new(alloc);
    for _ in 0..ARMS {
        arms.push(Arm {
            token: 1,
            condition: with_one(alloc, BinaryOperator::Less)?,
            body: more(alloc)?,
        })?;
    }
    Ok(TStmt {
        token: 1,
        form: TStmtForm::If(arms, None),
    })
}

fn statements(alloc: Global, is_chosen: bool) -> Result<Vec<TStmt>, AllocError> {
    let mut items = Vec::new(alloc);
    if is_chosen {
        items.push(chosen(alloc)?)?;
        return Ok(items);
    }
    for _ in 0..STATEMENTS {
        items.push(more(alloc)?)?;
    }
    Ok(items)
}

fn body(alloc: Global, is_chosen: bool) -> Result<TStmt, AllocError> {
    Ok(TStmt {
        token: 1,
        form: TStmtForm::Block {
            first: 0,
            count: 0,
            initialisers: Vec::new(alloc),
            items: statements(alloc, is_chosen)?,
        },
    })
}

fn function_type(alloc: Global) -> Result<QType, AllocError> {
    let signature = Signature {
        result: plain(CType::Void),
        params: Vec::new(alloc),
    };
    Ok(plain(CType::Function(Box::new(alloc, signature)?)))
}

fn function(alloc: Global, number: u32, is_chosen: bool) -> Result<TFunction, AllocError> {
    Ok(TFunction {
        name: Symbol::External(named(alloc, b'f', number)?),
        token: 1,
        ty: function_type(alloc)?,
        params: 0,
        locals: Vec::new(alloc),
        labels: 0,
        named: Vec::new(alloc),
        body: body(alloc, is_chosen)?,
    })
}

fn declared(alloc: Global) -> Result<Vec<Declared>, AllocError> {
    let mut declared = Vec::new(alloc);
    declared.push(Declared {
        name: named(alloc, b'n', 0)?,
        ty: plain(CType::Int(IntKind::Int)),
    })?;
    Ok(declared)
}

fn module(alloc: Global, sizes: &Sizes) -> Result<TModule, AllocError> {
    let mut functions = Vec::new(alloc);
    for number in 0..sizes.functions {
        functions.push(function(alloc, number, sizes.is_chosen)?)?;
    }
    Ok(TModule {
        types: Types::new(alloc),
        globals: Vec::new(alloc),
        functions,
        declared: declared(alloc)?,
    })
}

/// Lowers a module and tells the time that this took.
fn run(rt: HostRuntime, sizes: &Sizes) -> io::Result<()> {
    let alloc = rt.alloc();
    let tree = module(alloc, sizes)?;
    let name = named(alloc, b'm', 0)?;
    let start = rt.thread_cpu_time()?;
    let answer = lower_module(alloc, &name, &tree);
    let end = rt.thread_cpu_time()?;
    let time = end.saturating_sub(start).as_micros();
    match answer {
        Ok(flow) => println!(rt; "{} {time}", flow.functions.as_slice().len()),
        Err(_) => println!(rt; "refused"),
    }
}

fn main(rt: HostRuntime) -> io::Result<()> {
    for sizes in &MODULES {
        run(rt, sizes)?;
    }
    Ok(())
}
RATTLE

rattle_run bench_lower < /dev/null > "$work/times"
awk 'BEGIN { split("a module|twice its functions|as many tokens in arms of an if", what, "|") }
    $1 == "refused" { print "a module is refused"; exit 1 }
    { if (NR == 1) first = $2
      printf "%s: %d functions, lowered in %.1f ms, ratio %.2f\n", what[NR], $1, $2 / 1e3, $2 / first }' "$work/times"
