//! One stage on one side, again and again, for tools that count what it does.

use crate::buffers::{RoundBuffers, TableBuffers};
use crate::shared::LineKind;
use crate::sheets::{Shape, sheet};
use crate::{plain, proved};

fn settle(kind: LineKind, ours: bool, parcels: usize, repeat: u32) {
    let made = sheet(Shape::Grid, parcels);
    let mut buffers = RoundBuffers::new(parcels, made.others.len());
    let stage = if ours { proved::settle } else { plain::settle };
    stage(
        kind,
        made.tables(),
        &mut buffers.records,
        &mut buffers.marks,
        &mut buffers.slots,
        made.others.len() as u32,
        repeat,
    );
}

fn pair_outright(ours: bool, parcels: usize, repeat: u32) {
    let made = sheet(Shape::Grid, parcels);
    let mut buffers = RoundBuffers::new(parcels, made.others.len());
    let stage = if ours {
        proved::pair_outright
    } else {
        plain::pair_outright
    };
    stage(
        made.tables(),
        &mut buffers.records,
        &mut buffers.worklist,
        repeat,
    );
}

fn check(ours: bool, parcels: usize, repeat: u32) {
    let made = sheet(Shape::Grid, parcels);
    let stage = if ours { proved::check } else { plain::check };
    for _ in 0..repeat {
        stage(made.tables());
    }
}

fn read(ours: bool, parcels: usize, repeat: u32) {
    let made = sheet(Shape::Grid, parcels);
    let text = made.text();
    let mut buffers = TableBuffers::new(parcels, made.others.len());
    let stage = if ours { proved::read } else { plain::read };
    for _ in 0..repeat {
        stage(&text, buffers.lend());
    }
}

/// Runs the stage on the grid with so many parcels. The words: stage, `proved` or `plain`, parcels, repetitions.
pub fn run(words: &[String]) -> Option<()> {
    let [stage, side, parcels, repeat] = words else {
        return None;
    };
    let (parcels, repeat) = (parcels.parse().ok()?, repeat.parse().ok()?);
    let ours = side == "proved";
    match stage.as_str() {
        "reading" => read(ours, parcels, repeat),
        "check" => check(ours, parcels, repeat),
        "outright" => pair_outright(ours, parcels, repeat),
        "queue" => settle(LineKind::Queue, ours, parcels, repeat),
        "pigeonholes" => settle(LineKind::Pigeonholes, ours, parcels, repeat),
        _ => return None,
    }
    Some(())
}
