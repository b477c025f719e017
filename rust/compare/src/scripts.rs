//! What is done with lockplay's scripts: print what is expected of it, tell what a script lacks, and compare the program with the model.

use crate::inputs::Input;
use crate::lines::LineCounts;
use crate::lockplay;
use crate::program::Process;
use crate::verdict;
use std::io::{Error, Read, Result, Write, stdin, stdout};
use std::process::ExitCode;
use std::time::Instant;

/// The exit code of what may have failed for want of a file.
fn finished(result: Result<ExitCode>) -> ExitCode {
    result.unwrap_or_else(|error| {
        eprintln!("{error}");
        ExitCode::FAILURE
    })
}

fn read(script: &str) -> Result<Vec<u8>> {
    std::fs::read(script).map_err(|error| Error::new(error.kind(), format!("{script}: {error}")))
}

fn read_stdin() -> Result<Vec<u8>> {
    let mut input = Vec::new();
    stdin().read_to_end(&mut input)?;
    Ok(input)
}

/// Prints what lockplay is to print for a script, or for standard input.
pub fn expect(script: Option<&str>) -> ExitCode {
    let printed = script.map_or_else(read_stdin, read).map(|input| model::lockplay::printed(&input));
    finished(printed.and_then(|printed| stdout().write_all(printed.as_bytes())).map(|()| ExitCode::SUCCESS))
}

/// Tells whether a script has every kind of line, answer, refusal and branch that lockplay can meet.
pub fn forms(script: &str) -> ExitCode {
    finished(read(script).map(|input| {
        let mut counts = LineCounts::default();
        counts.play(&input);
        println!("{script}: {} lines", counts.lines());
        verdict(&counts.missing(), &counts.calls().unexpected())
    }))
}

/// Compares a program with the model, as some words say; none if they can't be read.
pub fn lockplay(program: &str, words: &[&str]) -> Option<ExitCode> {
    let options = Options::read(words)?;
    Some(finished(options.run(Process { path: program.into() })))
}

/// What a program is compared on.
struct Options {
    runs: u64,
    seed: u64,
    scripts: Vec<String>,
}

impl Options {
    fn read(words: &[&str]) -> Option<Options> {
        let mut options = Options { runs: 1000, seed: 1, scripts: Vec::new() };
        let mut words = words.iter();
        while let Some(word) = words.next() {
            match *word {
                "--runs" => options.runs = words.next()?.parse().ok()?,
                "--seed" => options.seed = words.next()?.parse().ok()?,
                unknown if unknown.starts_with("--") => return None,
                script => options.scripts.push(script.to_string()),
            }
        }
        Some(options)
    }

    fn run(&self, program: Process) -> Result<ExitCode> {
        let scripts = self.scripts.iter().map(|script| read(script).map(|bytes| Input::new(script, bytes)));
        let scripts = scripts.collect::<Result<Vec<Input>>>()?;
        let began = Instant::now();
        println!("comparing the model with {}, {} random scripts, seed {}", program.path.display(), self.runs, self.seed);
        match lockplay::play(&program, scripts, self.runs, self.seed) {
            Ok(counts) => {
                let seconds = began.elapsed().as_secs_f64();
                println!("{} runs, {} lines in {seconds:.1} s, no difference\n{counts}", counts.runs(), counts.lines.lines());
                Ok(verdict(&counts.missing(), &counts.lines.calls().unexpected()))
            }
            Err(failed) => {
                failed.report(&program);
                Ok(ExitCode::FAILURE)
            }
        }
    }
}
