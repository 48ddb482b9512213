//! Compares the proved stages with plain, safe Rust: first their answers, then their speed.

mod agree;
mod buffers;
mod measure;
mod plain;
mod proved;
mod shared;
mod sheets;
mod single;
mod tables;

use agree::Compared;
use measure::STAGES;
use sheets::{Shape, sheet};

const SIZES: [usize; 5] = [64, 128, 256, 512, 1_024];
const COMPLETE_SIZES: [usize; 2] = [64, 128];
const SHAPES: [Shape; 6] = [
    Shape::Random,
    Shape::Grid,
    Shape::Equal,
    Shape::Rising,
    Shape::Star,
    Shape::Complete,
];

const fn placement() -> usize {
    match option_env!("PLACEMENT") {
        Some(digit) => (digit.as_bytes()[0] - b'0') as usize,
        None => 0,
    }
}

/// Moves the code by 16 bytes a time, since the speed of a small loop depends on where it lies.
#[used]
static PADDING: [u8; 16 * placement()] = [1; 16 * placement()];

fn sizes_of(shape: Shape) -> &'static [usize] {
    match shape {
        Shape::Complete => &COMPLETE_SIZES,
        _ => &SIZES,
    }
}

fn compare_answers() {
    let mut compared = Compared::default();
    for shape in SHAPES {
        for &parcels in sizes_of(shape) {
            compared.sheet(shape, parcels);
        }
        compared.damaged(shape, 64, 1_500);
    }
    println!(
        "The answers agree: {} compared, {} of them refusals.",
        compared.answers, compared.refusals
    );
}

// A line for each stage of each sheet: the sheet, its sizes, the stage, and the nanoseconds of each side.
fn print_times() {
    for shape in SHAPES {
        for &parcels in sizes_of(shape) {
            let made = sheet(shape, parcels);
            let entries = made.others.len();
            for (stage, cost) in STAGES.iter().zip(measure::stages(&made)) {
                println!(
                    "{shape:?} {parcels} {entries} {stage} {:.1} {:.1}",
                    cost.proved, cost.plain
                );
            }
        }
    }
}

fn main() {
    let words: Vec<String> = std::env::args().skip(1).collect();
    match words.split_first() {
        Some((first, _)) if first == "answers" => compare_answers(),
        Some((first, _)) if first == "times" => print_times(),
        Some((first, files)) if first == "tables" => tables::print(files),
        Some((first, rest)) if first == "once" => {
            single::run(rest).expect("stage, proved or plain, parcels, repetitions")
        }
        _ => eprintln!("answers | times | tables FILE.. | once STAGE SIDE PARCELS REPETITIONS"),
    }
}
