//! Medians of interleaved runs.

use crate::buffers::{RoundBuffers, TableBuffers};
use crate::shared::{LineKind, Tables};
use crate::sheets::Owned;
use crate::{plain, proved};
use std::hint::black_box;
use std::time::{Duration, Instant};

/// How long each sample is made to take, by calling again and again.
const SAMPLE: Duration = Duration::from_micros(200);
const SAMPLES: usize = 41;

/// Nanoseconds of one call on each side.
#[derive(Clone, Copy)]
pub struct Cost {
    pub proved: f64,
    pub plain: f64,
}

fn median(mut samples: Vec<f64>) -> f64 {
    samples.sort_by(f64::total_cmp);
    samples[samples.len() / 2]
}

fn time(call: &mut dyn FnMut(u32), repeat: u32) -> f64 {
    let begin = Instant::now();
    call(repeat);
    begin.elapsed().as_nanos() as f64
}

// How many repetitions fill a sample, and take several times as long as what a call does beside them.
fn repeats(call: &mut dyn FnMut(u32)) -> u32 {
    call(1);
    let enough = SAMPLE.as_nanos() as f64 + 4.0 * time(call, 0);
    let mut repeat = 1;
    while time(call, repeat) < enough {
        repeat *= 2;
    }
    repeat
}

/// The cost of one repetition, the time of a call without any repetition taken off. The two sides take turns.
pub fn compare(mut ours: impl FnMut(u32), mut theirs: impl FnMut(u32)) -> Cost {
    let repeat = repeats(&mut ours).max(repeats(&mut theirs));
    let mut samples = [const { Vec::new() }; 4];
    for _ in 0..SAMPLES {
        samples[0].push(time(&mut ours, repeat));
        samples[1].push(time(&mut theirs, repeat));
        samples[2].push(time(&mut ours, 0));
        samples[3].push(time(&mut theirs, 0));
    }
    let [ours, theirs, ours_base, theirs_base] = samples.map(median);
    Cost {
        proved: (ours - ours_base) / f64::from(repeat),
        plain: (theirs - theirs_base) / f64::from(repeat),
    }
}

fn reading(text: &[u8], parcels: usize, entries: usize) -> Cost {
    let mut ours = TableBuffers::new(parcels, entries);
    let mut theirs = ours.clone();
    compare(
        |repeat| {
            for _ in 0..repeat {
                black_box(proved::read(black_box(text), black_box(ours.lend())));
            }
        },
        |repeat| {
            for _ in 0..repeat {
                black_box(plain::read(black_box(text), black_box(theirs.lend())));
            }
        },
    )
}

fn checking(tables: Tables<'_>) -> Cost {
    compare(
        |repeat| {
            for _ in 0..repeat {
                black_box(proved::check(black_box(tables)));
            }
        },
        |repeat| {
            for _ in 0..repeat {
                black_box(plain::check(black_box(tables)));
            }
        },
    )
}

fn pairing(tables: Tables<'_>) -> Cost {
    let mut ours = RoundBuffers::new(tables.stores.len(), tables.others.len());
    let mut theirs = ours.clone();
    compare(
        |repeat| {
            let (records, worklist) = (&mut ours.records, &mut ours.worklist);
            black_box(proved::pair_outright(
                black_box(tables),
                black_box(records),
                black_box(worklist),
                repeat,
            ));
        },
        |repeat| {
            let (records, worklist) = (&mut theirs.records, &mut theirs.worklist);
            black_box(plain::pair_outright(
                black_box(tables),
                black_box(records),
                black_box(worklist),
                repeat,
            ));
        },
    )
}

fn settling(kind: LineKind, tables: Tables<'_>) -> Cost {
    let capacity = tables.others.len() as u32;
    let mut ours = RoundBuffers::new(tables.stores.len(), tables.others.len());
    let mut theirs = ours.clone();
    compare(
        |repeat| {
            black_box(proved::settle(
                kind,
                black_box(tables),
                black_box(&mut ours.records),
                black_box(&mut ours.marks),
                black_box(&mut ours.slots),
                capacity,
                repeat,
            ));
        },
        |repeat| {
            black_box(plain::settle(
                kind,
                black_box(tables),
                black_box(&mut theirs.records),
                black_box(&mut theirs.marks),
                black_box(&mut theirs.slots),
                capacity,
                repeat,
            ));
        },
    )
}

pub const STAGES: [&str; 5] = ["reading", "check", "outright", "queue", "pigeonholes"];

/// The cost of every stage on a sheet.
pub fn stages(sheet: &Owned) -> [Cost; 5] {
    let tables = sheet.tables();
    [
        reading(&sheet.text(), sheet.stores.len(), sheet.others.len()),
        checking(tables),
        pairing(tables),
        settling(LineKind::Queue, tables),
        settling(LineKind::Pigeonholes, tables),
    ]
}
