//! Tables of what was measured, over several placements of the code.

use crate::measure::STAGES;
use std::collections::BTreeMap;
use std::fs;

/// A stage on a sheet: the nanoseconds of the proved and the plain side, at each placement.
#[derive(Default)]
struct Cell {
    times: Vec<(f64, f64)>,
}

impl Cell {
    fn proved(&self) -> f64 {
        self.times.iter().map(|t| t.0).sum::<f64>() / self.times.len() as f64
    }

    fn plain(&self) -> f64 {
        self.times.iter().map(|t| t.1).sum::<f64>() / self.times.len() as f64
    }

    // The ratio of the means, and the least and the greatest ratio at one placement.
    fn ratios(&self) -> String {
        let at_one = self.times.iter().map(|t| t.0 / t.1);
        let least = at_one.clone().fold(f64::INFINITY, f64::min);
        let most = at_one.fold(0.0, f64::max);
        let mean = self.proved() / self.plain();
        format!("**{mean:.2}** ({least:.2}–{most:.2})")
    }
}

/// A sheet with a cell for each stage.
struct Row {
    shape: String,
    parcels: usize,
    entries: usize,
    cells: BTreeMap<String, Cell>,
}

// Puts a measured line into its row; `None` if the line has not the form.
fn add(rows: &mut Vec<Row>, line: &str) -> Option<()> {
    let words: Vec<&str> = line.split(' ').collect();
    let [shape, parcels, entries, stage, proved, plain] = words[..] else {
        return None;
    };
    let (parcels, entries) = (parcels.parse().ok()?, entries.parse().ok()?);
    let known = |row: &Row| row.shape == shape && row.parcels == parcels;
    let at = rows.iter().position(known).unwrap_or_else(|| {
        rows.push(Row {
            shape: shape.to_string(),
            parcels,
            entries,
            cells: BTreeMap::new(),
        });
        rows.len() - 1
    });
    let cell = rows[at].cells.entry(stage.to_string()).or_default();
    cell.times.push((proved.parse().ok()?, plain.parse().ok()?));
    Some(())
}

fn read_rows(files: &[String]) -> Vec<Row> {
    let mut rows = Vec::new();
    for file in files {
        let text = fs::read_to_string(file).expect("a file of times");
        for line in text.lines() {
            add(&mut rows, line).expect("a line of times");
        }
    }
    rows
}

fn print_table<'a>(
    title: &str,
    rows: impl Iterator<Item = &'a Row>,
    show: fn(&Row, &Cell) -> String,
) {
    println!("\n{title}\n");
    println!("| sheet | parcels | entries | {} |", STAGES.join(" | "));
    println!("|{}", "---|".repeat(3 + STAGES.len()));
    for row in rows {
        let cells = STAGES.map(|stage| show(row, &row.cells[stage]));
        println!(
            "| {} | {} | {} | {} |",
            row.shape,
            row.parcels,
            row.entries,
            cells.join(" | ")
        );
    }
}

/// Prints the ratios, the times, and how the time for an entry changes as sheets grow.
pub fn print(files: &[String]) {
    let rows = read_rows(files);
    print_table("Proved / plain:", rows.iter(), |_, cell| cell.ratios());
    print_table("Nanoseconds, proved / plain:", rows.iter(), |_, cell| {
        format!("{:.0} / {:.0}", cell.proved(), cell.plain())
    });
    let sixteen = rows.iter().filter(|row| row.entries == 16 * row.parcels);
    print_table(
        "Nanoseconds for each entry, proved / plain:",
        sixteen,
        |row, cell| {
            let entries = row.entries as f64;
            format!(
                "{:.1} / {:.1}",
                cell.proved() / entries,
                cell.plain() / entries
            )
        },
    );
}
