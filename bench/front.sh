#!/usr/bin/env bash
# Times the front end: lexing, parsing with the tests of what the profile leaves out, and checking. The texts are one form
# again and again, of nearly the most tokens that a module may have (200,000, or 100,000 where checking is dear) and of
# half as many: functions of statements, declarations of different names, a table of structures, and one long sum. Prints
# milliseconds, each phase's quotient of the whole text and its half (2 where time is linear), and the quotient of all
# three phases by what `gcc -fsyntax-only`, `clang -fsyntax-only` and `tcc -c` take for the same text, less what they
# take for an empty one. Usage: bench/front.sh [small]
. "$(dirname "$0")/common.sh"
wants rt python3

# Each text is one line; the files are FORM.half.c and FORM.whole.c.
cat > "$work/made.py" <<'PYTHON'
import sys
folder, divisor = sys.argv[1], int(sys.argv[2])
# What a text begins with, what stands in it again and again, how often, what stands behind a hundred of them, and its end;
# # is the number of the turn.
FORMS = {
    "statements": ("int x[9],y,z; struct s{int q;} *p; void g(int *a,int b); void f0(void){int a=1,b=2,i=3;",
                   "if(a<b)x[i]=y*(z-1);else g(&p->q,3); ", 6500, "} void f#(void){int a=1,b=2,i=3;", "}"),
    "declarations": ("typedef int T;", "extern T *a#,(*b#)(T,char); ", 13200, "", ""),
    "structures": ("struct s{int a;struct{int b;char c[2];}d;} t[]={", '{-1,{2,"a"}}, ', 18100, "", "};"),
    "a-sum": ("int x=0", "+1*2", 49900, "", ";"),
}
for name, (begin, part, count, hundred, end) in FORMS.items():
    for which, turns in ("half", count // divisor // 2), ("whole", count // divisor):
        text = begin
        for turn in range(1, turns):
            text += part.replace("#", str(turn))
            if turn % 100 == 0: text += hundred.replace("#", str(turn))
        open(f"{folder}/{name}.{which}.c", "w").write(text + end + "\n")
open(f"{folder}/empty.c", "w").write("\n")
PYTHON
mkdir "$work/texts"
python3 "$work/made.py" "$work/texts" "$(size 1 200)"

rattle_program bench_prefix <<'RATTLE'
//! For each line of the input, which is the text of a module: its tokens, and the microseconds that lexing it, lexing and
//! parsing it, and checking it take.
#![tactic(auto)]

use pw_check::check;
use pw_front_end::front;
use pw_token::lex;
use std::io::{self, BufRead, BufReader};
use std::time::CpuClock;

/// Times the phases over a text.
fn measure(rt: &HostRuntime, text: &[u8]) -> io::Result<()> {
    let begin = rt.thread_cpu_time()?;
    let Ok(tokens) = lex(rt.alloc(), text) else {
        return println!(rt; "no tokens");
    };
    let lexed = rt.thread_cpu_time()?;
    let Ok(tree) = front(rt.alloc(), text) else {
        return println!(rt; "no tree");
    };
    let parsed = rt.thread_cpu_time()?;
    let is_accepted = check(rt.alloc(), &tree).is_ok();
    let checked = rt.thread_cpu_time()?;
    println!(rt; "{} {} {} {} {is_accepted}", tokens.len(), lexed.saturating_sub(begin).as_micros(),
        parsed.saturating_sub(lexed).as_micros(), checked.saturating_sub(parsed).as_micros())
}

fn main(rt: HostRuntime) -> io::Result<()> {
    for line in BufReader::new(rt.alloc(), rt.reader())?.lines(rt.alloc()) {
        measure(&rt, line?.as_bytes())?;
    }
    Ok(())
}
RATTLE

cd "$work/texts"
for form in *.whole.c; do cat "${form%.whole.c}.half.c" "$form"; done | rattle_run bench_prefix > "$work/times"
find_compilers
syntax() { # a compiler, and a text
    case $1 in
        tcc) tcc -w -c -o "$work/tcc.o" "$2" ;;
        *) "$1" -w -std=c90 -fsyntax-only "$2" ;;
    esac
}
declare -A empty
for compiler in "${native[@]}"; do empty[$compiler]=$(seconds syntax "$compiler" empty.c); done
for form in *.whole.c; do
    form=${form%.whole.c}
    read -r _ l p c half
    read -r tokens l2 p2 c2 whole
    [ "$half $whole" = "true true" ] || { echo "$form is refused: $half $whole"; exit 1; }
    awk -v form="$form" -v tokens="$tokens" -v l="$l" -v p="$p" -v c="$c" -v l2="$l2" -v p2="$p2" -v c2="$c2" 'BEGIN {
        printf "%s, %d tokens: lexed in %.1f ms, parsed in %.1f, checked in %.1f; ", form, tokens, l2 / 1e3, (p2 - l2) / 1e3, c2 / 1e3
        printf "ratios to the half %.2f, %.2f, %.2f\n", l2 / l, (p2 - l2) / (p - l), c2 / c }'
    for compiler in "${native[@]}"; do
        other=$(seconds syntax "$compiler" "$form.whole.c")
        awk -v compiler="$compiler" -v own=$((p2 + c2)) -v other="$other" -v empty="${empty[$compiler]}" 'BEGIN {
            took = other - empty
            if (took > 0) printf "  to %s %.2f\n", compiler, own / 1e6 / took; else printf "  %s takes no time that can be seen\n", compiler }'
    done
done < "$work/times"
