//! The driver of all benches: see README.md.
#[path = "arena/loads.rs"]
mod arena;
#[path = "shared/calls.rs"]
mod calls;
#[allow(dead_code)]
mod kernel;
#[allow(dead_code)]
mod lex;
#[path = "lex/loads.rs"]
mod lexing;
#[path = "lex/lines.rs"]
mod lines;
#[path = "shared/measure.rs"]
mod measure;
mod messages;
/// The same file as `kernel`, its `Arena` in reach.
#[allow(dead_code)]
mod opened;
#[allow(dead_code)]
mod random;
#[path = "release/loads.rs"]
mod release;
#[path = "rulebook/loads.rs"]
mod rulebook;
#[path = "shared/run.rs"]
mod run;
#[allow(dead_code)]
mod sexp;
#[path = "shared/table.rs"]
mod table;
#[path = "shared/texts.rs"]
mod texts;
#[path = "lex/tokens.rs"]
mod tokens;
mod worst;

use run::{Mode, Run};

// So many bytes before the code of both sides: where code stands moves some loads by a third, so each run is built with another number.
std::arch::global_asm!(concat!(".section .text.bench_pad,\"ax\",@progbits\n.globl bench_pad\nbench_pad: .skip ", env!("BENCH_PAD"), "\n.text"));

unsafe extern "C" {
    static bench_pad: u8;
}

fn main() {
    let words: Vec<String> = std::env::args().skip(1).collect();
    let words: Vec<&str> = words.iter().map(String::as_str).collect();
    let mode = match words[..] {
        ["tokens", folder] => return tokens::compare(folder),
        ["table"] => return table::print(),
        ["measure"] => Mode::Measure(String::new()),
        ["measure", bench] => Mode::Measure(bench.into()),
        ["repeat", side, load] => Mode::Repeat { rust: side == "rust", load: load.into() },
        _ => panic!("see bench/run"),
    };
    std::hint::black_box(&raw const bench_pad);
    let run = &mut Run::new(mode);
    lexing::loads(run);
    arena::loads(run);
    rulebook::loads(run);
    release::loads(run);
    release::pages(run);
    worst::loads::loads(run);
}
