#!/usr/bin/env bash
# Times the data-flow solver: from where the nodes of a graph are reached, over 4,096 nodes, rows of 8,192 bits and 40,000
# edges, and over 20,000 edges. Prints milliseconds and their quotient; work is bounded by edges times the height of the
# lattice, so nothing says that the quotient is 2. Usage: bench/solver.sh [small]
. "$(dirname "$0")/common.sh"
wants rt
nodes=$(size 4096 64)
edges=$(size 20000 300)

rattle_program bench_solver NODES="$nodes" BITS=$((2 * nodes)) HALF="$edges" WHOLE=$((2 * edges)) <<'RATTLE'
//! Runs of the solver whose time is taken.
#![tactic(auto)]

ghost use Rattle.std.specs.Prelude.{◌≡◌, ℕ, ◌<◌, ◌⊎◌, ◌↔◌, All, IfOk, OnOk};
ghost use Rattle.pw_fix.specs.Row.{Holds};
ghost use Rattle.pw_fix.specs.RowLaws.{insert_monotone, members_fit};

use pw_fix::{BitRow, Graph, NoMemory, Problem, Rows, solve};
use std::alloc::Global;
use std::io;
use std::time::CpuClock;

const NODES: usize = @NODES@;
const EDGES: [usize; 2] = [@HALF@, @WHOLE@];
const BITS: usize = @BITS@;

/// The nodes from which each node is reached.
#[derive(Drop)]
struct Reached {
    rows: Rows,
    ghost wide: { @NODES@ < rows.len },
}

impl Problem for Reached {
    type L = Rows;

    ghost node_count = { λ _. @NODES@ };

    ghost lattice_of = { λ p. p.rows };

    ghost height_of = { λ p. p.rows.len };

    ghost gives = { λ _ n x y. (k : ℕ) → Holds y k ↔ ((k ≡ n) ⊎ Holds x k) };

    fn lattice(&self) -> &Rows {
        &self.rows
    }

    fn step(&self, node: usize, inflow: &BitRow, out: &mut BitRow) {
        out.copy_from(inflow);
        out.insert(node);
    }

    fn height(&self) -> u64 {
        self.rows.len as u64
    }

    ghost monotone = { λ _ n x y a b _ _ _ _ _. insert_monotone n x y a b };

    ghost bounded = { λ p x. members_fit p.rows.len x };
}

/// One edge more.
fn add(edges: &mut Vec<(usize, usize)>, from: usize, to: usize) -> Result<(), NoMemory>
    requires from { from < @NODES@ }
    requires to { to < @NODES@ }
    requires within { All (λ (e : ℕ × ℕ). (e.0 < @NODES@) × (e.1 < @NODES@)) edges.old.items }
    ensures { OnOk result (All (λ (e : ℕ × ℕ). (e.0 < @NODES@) × (e.1 < @NODES@)) edges.new.items) }
{
    edges.push((from, to))?;
    Ok(())
}

/// A graph of so many edges, which a generator of numbers draws.
fn drawn(alloc: Global, count: usize) -> Result<Graph, NoMemory>
    ensures { IfOk result (λ graph. graph.nodes ≡ @NODES@) }
{
    let mut edges = Vec::new(alloc);
    let mut state = 1u64;
    for _ in 0..count {
        state = state.wrapping_mul(6364136223846793005).wrapping_add(1442695040888963407);
        let from = (state >> 33) as usize % NODES;
        state = state.wrapping_mul(6364136223846793005).wrapping_add(1442695040888963407);
        let to = (state >> 33) as usize % NODES;
        add(&mut edges, from, to)?;
    }
    Ok(Graph { nodes: NODES, edges })
}

/// Solves a problem; prints the edges, the microseconds that this took, and how many numbers the rows of the solution hold.
fn run(rt: &HostRuntime, count: usize) -> io::Result<()> {
    let graph = drawn(rt.alloc(), count)?;
    let problem = Reached { rows: Rows { len: BITS } };
    let start = rt.thread_cpu_time()?;
    let values = solve(rt.alloc(), &graph, &problem)?;
    let end = rt.thread_cpu_time()?;
    let mut held = 0usize;
    for row in &values {
        for _ in row.iter() {
            held = held.saturating_add(1);
        }
    }
    let took = end.saturating_sub(start);
    println!(rt; "{count} {} {held}", took.as_micros())
}

fn main(rt: HostRuntime) -> io::Result<()> {
    for count in &EDGES {
        run(&rt, *count)?;
    }
    Ok(())
}
RATTLE
mkdir -p "$work/crates/bench_solver/proofs/drawn"
sed "s/@NODES@/$nodes/g" > "$work/crates/bench_solver/proofs/drawn/Invariants.antt" <<'ANTT'
use Rattle.std.proofs.Common.{ℕ, ◌<◌, All}
use Rattle.bench_solver.proofs.drawn.Given as goal

abbrev pub invariant-loop : goal.invariant-loop
invariant-loop l = All (λ (e : ℕ × ℕ). (e.0 < @NODES@) × (e.1 < @NODES@)) l.edges.items
ANTT

rattle_run bench_solver < /dev/null > "$work/times"
awk -v nodes="$nodes" '{ printf "%d nodes, %d edges, rows of %d bits: %.1f ms, %d numbers\n", nodes, $1, 2 * nodes, $2 / 1e3, $3; time[NR] = $2 }
    END { if (NR == 2 && time[1] > 0) printf "twice the edges: ratio %.2f\n", time[2] / time[1] }' "$work/times"
