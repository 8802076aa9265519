#!/usr/bin/env bash
# Times the machine: steps a second in a loop of 200 million steps, beside the same loop in an interpreter of the same
# instructions in C (bench/machine.c, gcc -O2 or clang -O2). Both have to take the same steps. Usage: bench/machine.sh [small]
. "$(dirname "$0")/common.sh"
wants rt
c_machine
budget=$(size 1000000000 20000)

# LDIL 12207,4; LDO 0(30),6; LDW 0(6),7; ADDL 7,4,7; STW 7,0(6); XOR 7,8,8; EXTRU 8,20,11,9;
# LDO -1(4),4; COMBF,= 4,0,00001008; NOP; OR 8,0,26; BREAK 0,3
loop=(208bf02e 37c60000 48c70000 08870a07 68c70000 09070288 d1091a95 34843fff 88043fc5 08000240 0808025a 00006000)

rattle_program bench_machine LOOP="$(printf '0x%s, ' "${loop[@]}")" BUDGET="$budget" <<'RATTLE'
//! Runs words; prints the steps that were taken, and the microseconds.
#![tactic(auto)]

use anyhow::Error;
use pw_fields::frame::seal;
use pw_image::KIND;
use pw_io::{DropSink, SureSource};
use pw_machine::Machine;
use std::alloc::{AllocError, Global};
use std::time::CpuClock;

const LOOP: [u32; 12] = [@LOOP@];

/// The file of an image that has the words, entered at the first, and no data, functions and globals.
fn image_of(alloc: Global) -> Result<Vec<u8>, AllocError> {
    let mut payload = Vec::new(alloc);
    for number in [4096_u32, 4096, 1_048_576, 12] {
        payload.extend_from_slice(&number.to_be_bytes())?;
    }
    for word in &LOOP {
        payload.extend_from_slice(&word.to_be_bytes())?;
    }
    payload.extend_from_slice(&[0; 20])?;
    let payload = payload.get(..84).unwrap_or(&[]);
    seal(alloc, KIND, 1, payload)
}

fn main(rt: HostRuntime) -> Result<(), Error> {
    let image = image_of(rt.alloc())?;
    let Ok(mut machine) = Machine::load(rt.alloc(), &image) else {
        return Ok(());
    };
    let mut input = SureSource::new(rt.alloc(), &[])?;
    let mut out = DropSink::new();
    let begin = rt.thread_cpu_time()?;
    let stop = machine.run(&mut input, &mut out, @BUDGET@);
    let end = rt.thread_cpu_time()?;
    println!(rt; "{} {} {stop:?}", machine.steps(), end.saturating_sub(begin).as_micros())?;
    Ok(())
}
RATTLE

rattle_run bench_machine < /dev/null > "$work/answer"
read -r steps time _ < "$work/answer"
cat "$work/answer"
printf '%s\n' "${loop[@]}" > "$work/words"
loop_in_c() { "$work/machine" "$budget" < "$work/words"; }
c=$(for _ in 1 2 3 4 5; do second loop_in_c; done | sort -n | head -1)
cat "$work/told"
grep -qF " $steps " "$work/told" || { echo "the interpreter in C takes other steps"; exit 1; }
awk -v s="$steps" -v t="$time" -v c="$c" 'BEGIN {
    printf "by the machine %.1f million steps a second\n", s / t
    if (c > 0) printf "in C %.1f million, ratio of times %.2f\n", s / c / 1e6, t / 1e6 / c }'
