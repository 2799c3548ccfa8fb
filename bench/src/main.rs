//! Makes one call so many times: `bench SIDE CALL SIZE TIMES`, where SIDE is `ours` or `text` and the rest are numbers. The
//! instructions of one call are then a difference of two runs. `bench list` prints, for each call and size, its number and
//! name, the size's number, what the call is given, the operations that its rule needs, and whether the text has such a call.

mod measures;

// The Rust text, unchanged, at the places of the crate where it expects to stand. It is not ours to tidy.
#[allow(clippy::all, dead_code)]
mod traits {
    include!(env!("TEXT_TRAITS"));
}
use traits::KernelFunction;

#[allow(clippy::all, dead_code)]
mod utils {
    include!(env!("TEXT_UTILS"));
}

#[allow(clippy::all, dead_code)]
mod aca {
    include!(env!("TEXT_ACA"));

    pub mod doors;
}

#[allow(clippy::all, dead_code, unused_imports)]
mod chebyshev {
    include!(env!("TEXT_CHEBYSHEV"));

    pub mod doors;
}

#[allow(dead_code)]
#[path = "../../oracle/src/bbfmm.rs"]
mod bbfmm;

use measures::Measure;
use std::env;
use std::process::exit;

fn list() {
    for (number, (call, make)) in measures::CALLS.iter().enumerate() {
        for size in 0..measures::SIZES {
            let Measure { given, floor, text, .. } = make(size);
            let has_text = if text.is_some() { "yes" } else { "no" };
            println!("{number}\t{call}\t{size}\t{given}\t{floor}\t{has_text}");
        }
    }
}

fn repeat(measure: Measure, side: &str, times: usize) {
    let mut call = match side {
        "ours" => measure.ours,
        "text" => measure.text.unwrap_or_else(|| usage()),
        _ => usage(),
    };
    for _ in 0..times {
        call();
    }
}

fn usage() -> ! {
    eprintln!("usage: bench list | bench ours|text CALL SIZE TIMES");
    exit(2)
}

fn main() {
    let words: Vec<String> = env::args().skip(1).collect();
    let words: Vec<&str> = words.iter().map(String::as_str).collect();
    if let ["list"] = words[..] {
        return list();
    }
    let [side, numbers @ ..] = &words[..] else { usage() };
    let numbers: Vec<usize> = numbers.iter().filter_map(|word| word.parse().ok()).collect();
    let [call, size, times] = numbers[..] else { usage() };
    let Some((_, make)) = measures::CALLS.get(call).filter(|_| size < measures::SIZES) else { usage() };
    repeat(make(size), side, times);
}
