#!/usr/bin/env bash
# Times the preprocessor over C sources of four forms, and of half each: a text of 1 MiB with 10,000 calls of macros; calls
# nested 20 deep, again and again; definitions and uses of the most macros that there may be; and one nest of calls, which is
# read without recursion, so that it may be as deep as the text is long. Prints milliseconds, the exponent by which time grows
# from the half (1 where it is linear; a nest of calls is read once for each that it stands in), and the quotient by what `gcc -E`
# takes for the same text, less what it takes for an empty one. Usage: bench/cpp.sh [small]
. "$(dirname "$0")/common.sh"
wants rt python3

# The files are FORM.half.c and FORM.whole.c.
cat > "$work/made.py" <<'PYTHON'
import sys
folder, divisor = sys.argv[1], int(sys.argv[2])


def calls(n):
    """So many calls among other lines."""
    text = "#define F(x, y) ((x) + (y) * 2)\n#define G(x) F(x, x - 1)\n#define N 12\n"
    line = "int a%05d = %s; /* What is said here at some length is passed over, and is no output. */\n"
    return text + "".join(line % (i, ("F(1, %05d)" if i % 2 else "G(N + %d)") % i) for i in range(n))


def nested(n):
    """So many calls nested 20 deep."""
    return "#define F(x) (x + 1)\n" + ("int a = " + "F(" * 20 + "1" + ")" * 20 + ";\n") * n


def macros(n):
    """So many macros, each used once."""
    return "".join(f"#define M{i} {i} +\n" for i in range(n)) + "".join(f"int a{i} = M{i} 1;\n" for i in range(n))


def deep(n):
    """One nest of so many calls."""
    return "#define F(x) x\n" + "F(\n" * n + "1" + ")" * n + "\n"


for form, make, count in ("calls", calls, 10000), ("nested", nested, 1000), ("macros", macros, 4096), ("deep", deep, 1000):
    for which, n in ("half", count // divisor // 2), ("whole", count // divisor):
        open(f"{folder}/{form}.{which}.c", "w").write(make(n))
open(f"{folder}/empty.c", "w").write("\n")
PYTHON
mkdir "$work/texts"
python3 "$work/made.py" "$work/texts" "$(size 1 100)"

rattle_program bench_cpp <<'RATTLE'
//! For each line of the input, which is a C source with `@` for each newline: the bytes of the source and of the output, and the
//! microseconds that preprocessing takes.
#![tactic(auto)]

use pw_cpp::preprocess;
use pw_value::Name;
use std::alloc::{AllocError, Global};
use std::io::{self, BufRead, BufReader};
use std::time::CpuClock;

/// The source, as a file of its own.
fn files_of(alloc: Global, line: &str) -> Result<Vec<(Name, Vec<u8>)>, AllocError> {
    let mut text = Vec::from_slice(alloc, line.as_bytes())?;
    for byte in text.iter_mut() {
        if *byte == b'@' {
            *byte = b'\n';
        }
    }
    let mut files = Vec::new(alloc);
    files.push((Name::lawful(alloc, b"a.c")?, text))?;
    Ok(files)
}

/// Times the preprocessor over a source.
fn measure(rt: &HostRuntime, line: &str) -> io::Result<()> {
    let Ok(files) = files_of(rt.alloc(), line) else {
        return println!(rt; "no memory");
    };
    let Ok(name) = Name::lawful(rt.alloc(), b"a.c") else {
        return println!(rt; "no memory");
    };
    let begin = rt.thread_cpu_time()?;
    let Ok(output) = preprocess(rt.alloc(), files.as_slice(), name) else {
        return println!(rt; "refused");
    };
    let end = rt.thread_cpu_time()?;
    println!(rt; "{} {} {}", line.len(), output.len(), end.saturating_sub(begin).as_micros())
}

fn main(rt: HostRuntime) -> io::Result<()> {
    for line in BufReader::new(rt.alloc(), rt.reader())?.lines(rt.alloc()) {
        measure(&rt, line?.as_str())?;
    }
    Ok(())
}
RATTLE

cd "$work/texts"
for form in *.whole.c; do
    for which in half whole; do tr '\n' '@' < "${form%.whole.c}.$which.c"; echo; done
done | rattle_run bench_cpp > "$work/times"
if command -v gcc > "$work/where"; then
    expand() { gcc -E -P -std=c90 -w -o "$work/expanded" "$1"; }
    empty=$(seconds expand empty.c)
else
    echo "there is no gcc"
    empty=
fi
for form in *.whole.c; do
    form=${form%.whole.c}
    read -r _ _ half
    read -r bytes made whole
    awk -v form="$form" -v bytes="$bytes" -v made="$made" -v half="$half" -v whole="$whole" 'BEGIN {
        printf "%s: %d bytes, %d of output, in %.1f ms, exponent %.2f\n", form, bytes, made, whole / 1e3, half > 0 ? log(whole / half) / log(2) : 0 }'
    if [ -n "$empty" ]; then
        other=$(seconds expand "$form.whole.c")
        awk -v own="$whole" -v other="$other" -v empty="$empty" 'BEGIN {
            took = other - empty
            if (took > 0) printf "  to gcc -E %.2f\n", own / 1e6 / took; else print "  gcc -E takes no time that can be seen" }'
    fi
done < "$work/times"
