//! Times the library against `flat` and writes docs/BENCHMARKS.md and docs/benchmarks.svg.
#![forbid(unsafe_code)]

mod beside;
mod call;
mod fill;
mod measure;
mod report;
mod rows;
mod svg;
mod worst;

use crate::beside::{BESIDE, HOLDERS};
use crate::measure::{Cell, Effort, measure, measure_beside, measure_worst};
use crate::report::Results;
use crate::rows::ROWS;
use crate::worst::WORST;
use std::path::{Path, PathBuf};
use std::process::ExitCode;
use std::time::Duration;

const USAGE: &str = "usage: bench [--quick] [--out FOLDER]   (FOLDER is the repository's docs unless given)";

/// Enough for steady medians, and for a look.
const THOROUGH: Effort = Effort { time: Duration::from_millis(150), most_turns: 5001 };
const QUICK: Effort = Effort { time: Duration::from_millis(10), most_turns: 25 };

fn main() -> ExitCode {
    let mut effort = THOROUGH;
    let mut folder = PathBuf::from(concat!(env!("CARGO_MANIFEST_DIR"), "/../../docs"));
    let mut arguments = std::env::args().skip(1);
    while let Some(argument) = arguments.next() {
        match (argument.as_str(), arguments.len()) {
            ("--quick", _) => effort = QUICK,
            ("--out", 1..) => folder = arguments.next().unwrap_or_default().into(),
            _ => {
                eprintln!("{USAGE}");
                return ExitCode::from(2);
            }
        }
    }
    match run(effort, &folder) {
        Ok(()) => ExitCode::SUCCESS,
        Err(error) => {
            eprintln!("{}: {error}", folder.display());
            ExitCode::FAILURE
        }
    }
}

fn run(effort: Effort, folder: &Path) -> std::io::Result<()> {
    std::fs::create_dir_all(folder)?;
    let results = Results::all(|row, size, fill| {
        if row == 0 {
            eprintln!("R {}, L {}, {}", size.resources, size.locks, fill.title());
        }
        measure(&ROWS[row], size, fill, effort)
    });
    eprintln!("beside many holders");
    let beside: Vec<_> = BESIDE.iter().map(|beside| HOLDERS.map(|holders| measure_beside(beside, holders, effort))).collect();
    eprintln!("worst tables for break");
    let worst: Vec<Cell> = WORST.iter().map(|worst| measure_worst(worst, effort)).collect();
    std::fs::write(folder.join("BENCHMARKS.md"), report::page(&results, &beside, &worst))?;
    std::fs::write(folder.join("benchmarks.svg"), svg::plot(&results))?;
    println!("wrote BENCHMARKS.md and benchmarks.svg to {}", folder.display());
    Ok(())
}
