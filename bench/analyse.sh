#!/usr/bin/env bash
# Times the analyser on a program at its limits, 256 summaries with 4,096 functions, 8,192 globals, some 60,000 calls and
# as many references, and on one of half the functions and globals. The summaries' files are made by a script; a program
# reads them from its input into a store in memory and obeys `analyse`. Prints the milliseconds of the command, reading and
# writing of the store's files included, and the quotient of the two. Usage: bench/analyse.sh [small]
. "$(dirname "$0")/common.sh"
wants rt python3

cat > "$work/made.py" <<'PYTHON'
import hashlib, struct, sys
modules, per_f, per_g = int(sys.argv[1]), int(sys.argv[2]), int(sys.argv[3])
F, G = modules * per_f, modules * per_g
u32 = lambda n: struct.pack('>I', n)
u64 = lambda n: struct.pack('>Q', n)
text = lambda b: u32(len(b)) + b
lst = lambda xs: u32(len(xs)) + b''.join(xs)
fn = lambda k: b'$start' if k == 0 else b'main' if k == 1 else b'f%05d' % k
gl = lambda k: b'g%05d' % k
for m in range(modules):
    mod = b'm%03d' % m
    fs = sorted(fn(k) for k in range(m * per_f, (m + 1) * per_f))
    number = {fn(k): k for k in range(m * per_f, (m + 1) * per_f)}
    gs = [gl(k) for k in range(m * per_g, (m + 1) * per_g)]
    calls, refs = {}, {}
    for f in fs:
        k = number[f]
        to = sorted({fn(k + j * (1 + k % 5)) for j in range(1, 16) if 1 < k + j * (1 + k % 5) < F})
        if k == 0: to = [b'main'] 
        calls[f] = to
        share = G // 15
        refs[f] = sorted({gl(j * share + (k * 7 + j) % share) for j in range(15)})
    used = sorted({c for f in fs for c in calls[f]} | {r for f in fs for r in refs[f]})
    declared = sorted(({f for f in fs if f != b'$start'} | set(gs) | set(used)))
    shape = lambda n: b'i' if n[:1] == b'g' else (b'fi' if n == b'main' else b'fv')
    names = sorted({mod} | set(fs) | set(gs) | set(declared) | set(used))
    at = {n: i for i, n in enumerate(names)}
    nm = lambda n: u32(at[n])
    p = lst([text(n) for n in names]) + nm(mod)
    p += lst([nm(g) + text(b'i') + b'\x05' + b'\x00' for g in gs])
    p += lst([nm(f) + text(b'fv' if f == b'$start' else shape(f)) for f in fs])
    p += lst([nm(n) + text(shape(n)) for n in declared])
    p += lst([nm(n) for n in used]) + lst([]) + lst([])
    for f in fs:
        p += lst([nm(c) for c in calls[f]]) + lst([])
        p += lst([nm(r) + u64(number[f] % 64 + 1) + u64(number[f] % 3) for r in refs[f]])
        p += bytes([number[f] % 5])
    x = b'PAWS' + u32(12 + len(p) + 32) + u32(2) + p
    print(mod.decode(), (x + hashlib.sha256(x).digest()).hex())
PYTHON

rattle_program bench_analyse <<'RATTLE'
//! Obeys `analyse` over summaries that its input gives, a name and a file in hexadecimal on each line.
#![tactic(auto)]

use hex::decode;
use pw_top_answer::status;
use pw_commands::analyse_modules;
use pw_io::SureStore;
use std::alloc::{AllocError, Global};
use std::io::{self, BufRead, BufReader};
use std::time::CpuClock;

/// Puts the files of a line's module behind others: an empty text and its summary.
fn add_line(
    alloc: Global,
    files: &mut Vec<(String, Vec<u8>)>,
    line: &str,
) -> Result<(), AllocError> {
    if let Some((name, hexadecimal)) = line.split_once(' ') {
        let mut text = String::from_str(alloc, name)?;
        text.push_str(".i")?;
        files.push((text, Vec::new(alloc))).map_err(|_| AllocError)?;
        let mut summary = String::from_str(alloc, name)?;
        summary.push_str(".sum")?;
        let bytes = decode(alloc, hexadecimal.as_bytes()).map_err(|_| AllocError)?;
        files.push((summary, bytes)).map_err(|_| AllocError)?;
    }
    Ok(())
}

/// Obeys `analyse`, and prints the status of the answer, the bytes of the database's file, and the microseconds that the
/// command took.
fn measure(rt: &HostRuntime, files: &[(String, Vec<u8>)]) -> io::Result<()> {
    let alloc = rt.alloc();
    let mut store = SureStore::new(alloc, files)?;
    let begin = rt.thread_cpu_time()?;
    let answer = analyse_modules(alloc, &mut store, 8);
    let end = rt.thread_cpu_time()?;
    let size = store.bytes_of("prog.db").map_or(0, |bytes| bytes.len());
    println!(rt; "{} {size} {}", status(&answer), end.saturating_sub(begin).as_micros())
}

fn main(rt: HostRuntime) -> io::Result<()> {
    let alloc = rt.alloc();
    let mut files = Vec::new(alloc);
    for line in BufReader::new(alloc, rt.reader())?.lines(alloc) {
        add_line(alloc, &mut files, &line?)?;
    }
    measure(&rt, &files)
}
RATTLE

modules=$(size 256 4)
measure() { # how many functions and globals a module has
    local state bytes time
    python3 "$work/made.py" "$modules" "$1" "$2" > "$work/made.in"
    rattle_run bench_analyse < "$work/made.in" > "$work/times"
    read -r state bytes time < "$work/times"
    [ "$state" = 0 ] || { echo "analyse ends with status $state" >&2; exit 1; }
    echo "$((modules * $1)) functions, $((modules * $2)) globals: $((time / 1000)) ms, a database of $bytes bytes" >&2
    echo "$time"
}
half=$(measure 8 16)
whole=$(measure 16 32)
echo "twice the program: ratio $(ratio "$whole" "$half")"
