#!/usr/bin/env bash
# Times the interpreter: evaluated nodes a second in a loop over an array of 1,000 ints, and half its turns; and calls that nest
# 1,000,000 and 500,000 deep, with the greatest memory of the process for each. Usage: bench/interp.sh [small]
. "$(dirname "$0")/common.sh"
wants rt python3
turns=$(size 20000 20)
depth=$(size 1000000 1000)

rattle_program bench_interp <<'RATTLE'
//! Runs a program that stands on the input, by the meaning of C; prints how the run ended, and its microseconds.
#![tactic(auto)]

use anyhow::Error;
use pw_check::check;
use pw_front_end::front;
use pw_interp::{CEnd, interpret_parts};
use pw_interp_world::Part;
use pw_io::{DropSink, SureSource};
use pw_typed::TModule;
use pw_value::Name;
use std::alloc::Global;
use std::io::Read;
use std::mem::ManuallyDrop;
use std::time::CpuClock;

/// The typed tree of a text, where it is accepted.
fn typed(alloc: Global, text: &[u8]) -> Option<ManuallyDrop<TModule>> {
    let tree = ManuallyDrop::new(front(alloc, text).ok()?);
    Some(ManuallyDrop::new(check(alloc, &tree).ok()?))
}

/// How a run ended.
fn told(end: &CEnd) -> &'static str {
    match end {
        CEnd::Ended(0) => "ended",
        CEnd::Ended(_) => "ended with another status",
        CEnd::Stack => "stack full",
        CEnd::Undefined(_, _, _) => "undefined",
        CEnd::Bound => "bound",
    }
}

fn main(rt: HostRuntime) -> Result<(), Error> {
    let mut text = Vec::new(rt.alloc());
    rt.stdin().read_to_end(&mut text)?;
    let Some(tree) = typed(rt.alloc(), &text) else {
        println!(rt; "refused")?;
        return Ok(());
    };
    let Ok(name) = Name::new(rt.alloc(), b"a") else {
        return Ok(());
    };
    let parts = [Part { name: &name, tree: &tree }];
    let mut input = SureSource::new(rt.alloc(), &[])?;
    let mut out = DropSink::new();
    let begin = rt.thread_cpu_time()?;
    let end = interpret_parts(rt.alloc(), &parts, &[], 0, u64::MAX, &mut input, &mut out);
    let time = rt.thread_cpu_time()?.saturating_sub(begin).as_micros();
    match end {
        Ok(end) => println!(rt; "{time} {}", told(&end))?,
        Err(fault) => println!(rt; "{time} {fault:?}")?,
    }
    Ok(())
}
RATTLE

# A loop over an array: a turn of the inner loop evaluates 14 nodes, 3 of `i < 1000`, 2 of `i++` and 9 of `s = s + a[i]`.
loop_text() {
    echo "int a[1000]; int main(void) { int i, j, s; s = 0; for (j = 0; j < $1; j++) for (i = 0; i < 1000; i++) s = s + a[i]; return s; }"
}

# Calls that nest so deep.
deep_text() { echo "int f(int n) { if (n == 0) return 0; return f(n - 1); } int main(void) { return f($1); }"; }

# The program over a text: its microseconds and how the run ended.
timed() {
    rattle_run bench_interp > "$work/answer"
    grep -q ' ended$' "$work/answer" || { cat "$work/answer"; exit 1; } >&2
    awk '{ print $1 }' "$work/answer"
}

# The greatest memory of the program over a text, in bytes.
memory() {
    local program="$work/crates/bench_interp/out/bench_interp"
    [ -x "$program" ] || program="${program}_unproved"
    cat > "$work/input"
    python3 -c 'import resource, subprocess, sys
subprocess.run(sys.argv[1:], check=True, stdout=subprocess.DEVNULL)
print(1024 * resource.getrusage(resource.RUSAGE_CHILDREN).ru_maxrss)' "$program" < "$work/input"
}

whole=$(loop_text "$turns" | timed)
half=$(loop_text $((turns / 2)) | timed)
awk -v t="$whole" -v n="$turns" 'BEGIN { printf "%.1f million nodes a second\n", 14 * 1000 * n / t }'
echo "ratio to the half $(ratio "$whole" "$half")"

deep=$(deep_text "$depth" | timed)
half=$(deep_text $((depth / 2)) | timed)
echo "calls $depth deep: $deep microseconds, ratio to the half $(ratio "$deep" "$half")"
most=$(deep_text "$depth" | memory)
less=$(deep_text $((depth / 2)) | memory)
none=$(deep_text 1 | memory)
awk -v a="$most" -v b="$less" -v c="$none" -v d="$depth" 'BEGIN {
    printf "%.0f bytes a call, ratio of memory to the half %.2f\n", (a - c) / d, (a - c) / (b - c) }'
