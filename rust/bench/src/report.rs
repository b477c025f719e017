//! The results as Markdown tables.

use crate::beside::{BESIDE, HOLDERS};
use crate::fill::{Fill, SIZES, Size};
use crate::measure::{Cell, Whole, median};
use crate::rows::{ROWS, SOUND};
use crate::worst::WORST;
use std::fmt::Write;

/// All cells, by size, filling and row.
pub struct Results {
    cells: Vec<((usize, usize, usize), Cell)>,
}

impl Results {
    /// Measures all of them by a function of row, size and filling.
    pub fn all(mut measure: impl FnMut(usize, Size, Fill) -> Cell) -> Results {
        let mut cells = Vec::new();
        for (at_size, size) in SIZES.iter().enumerate() {
            for (at_fill, fill) in Fill::ALL.iter().enumerate() {
                cells.extend((0..ROWS.len()).map(|row| ((at_size, at_fill, row), measure(row, *size, *fill))));
            }
        }
        Results { cells }
    }

    pub fn cell(&self, size: usize, fill: Fill, row: usize) -> Cell {
        let at_fill = Fill::ALL.iter().position(|other| *other == fill).expect("a filling");
        self.cells.iter().find(|(key, _)| *key == (size, at_fill, row)).expect("all are measured").1
    }

    pub fn row(title: &str) -> usize {
        ROWS.iter().position(|row| row.title == title).expect("a row")
    }

    /// The middle of the ratios of all cells.
    fn middle_ratio(&self) -> f64 {
        median(self.cells.iter().map(|(_, cell)| cell.ratio))
    }

    /// How many cells of a size have the library behind, and the titles of their rows.
    fn behind(&self, at: usize) -> (usize, Vec<&'static str>) {
        let cells: Vec<usize> =
            self.cells.iter().filter(|((size, _, _), cell)| *size == at && cell.ratio > 1.0).map(|((_, _, row), _)| *row).collect();
        let titles = ROWS.iter().enumerate().filter(|(row, _)| cells.contains(row)).map(|(_, spec)| spec.title).collect();
        (cells.len(), titles)
    }
}

/// A time as a person reads it.
pub fn time(nanoseconds: f64) -> String {
    match nanoseconds {
        n if n < 1e4 => format!("{n:.0} ns"),
        n if n < 1e7 => format!("{:.1} µs", n / 1e3),
        n => format!("{:.1} ms", n / 1e6),
    }
}

/// What machine this is, if it says.
fn machine() -> String {
    let information = std::fs::read_to_string("/proc/cpuinfo").unwrap_or_default();
    let models: Vec<&str> = information.lines().filter_map(|line| line.strip_prefix("model name")).collect();
    let model = models.first().and_then(|line| line.split_once(':')).map_or("an unknown processor", |(_, model)| model.trim());
    format!("{model}, {} of its cores", models.len())
}

/// The whole page. Calls on a name that many locks hold are there for each number of them, and break's worst tables have a cell each.
pub fn page(results: &Results, beside: &[[Whole; HOLDERS.len()]], worst: &[Cell]) -> String {
    let mut page = String::new();
    introduction(&mut page, results);
    for (at, size) in SIZES.iter().enumerate() {
        size_table(&mut page, results, at, *size);
    }
    beside_table(&mut page, beside);
    worst_table(&mut page, worst);
    stack_table(&mut page);
    required_form(&mut page, results);
    share_table(&mut page, results);
    growth_table(&mut page, results);
    page
}

fn introduction(page: &mut String, results: &Results) {
    let _ = write!(
        page,
        "# Benchmarks\n\n\
         Made by `rust/bench`; not to be edited by hand. The library is compared with `rust/flat`, a plain Rust manager written for speed that \
         works on the same tables and checks their soundness first in each call, as the library does. Both get the same calls on copies of the \
         same tables, by turns in one run. Times are medians in each call; a ratio is the middle one of the turns' own ratios, library over \
         flat, and is what counts: the times themselves depend on the machine ({}), which other programs share.\n\n\
         Names have 48 bytes and differ in the last eight only. \"Empty\" tables have no locks but those that the call needs; \"full\" ones leave \
         three locks and two resources free for it; in \"full, one name\" all locks stand on one resource, half of them granted, an eighth \
         converting, the others waiting. What clients are told while tables are filled they have polled. \"Request, marks all\" waits and marks \
         every lock on its name that holds more than NL, in \"full, one name\" half of all locks. \"Request, behind a wait chain\" is for PR where \
         PR is held and others wait: in \"full, one name\" three eighths of all locks, once those that convert are purged, elsewhere one. \
         \"Break, no deadlock\" finds that no blocked lock leads back to itself. The mixed list is 64 calls one after the other on the same tables: \
         requests, conversions, releases, and a few cancels, polls and reads.\n\n\
         The middle of all ratios is **{:.2}**.\n\n\
         ![Ratios and growth](benchmarks.svg)\n",
        machine(),
        results.middle_ratio()
    );
}

fn size_table(page: &mut String, results: &Results, at: usize, size: Size) {
    let _ = write!(page, "\n## R {}, L {}\n\n| entry |", size.resources, size.locks);
    for fill in Fill::ALL {
        let _ = write!(page, " {}: library | flat | ratio |", fill.title());
    }
    let _ = write!(page, "\n|---|{}\n", "--:|--:|--:|".repeat(Fill::ALL.len()));
    for (row, spec) in ROWS.iter().enumerate() {
        let _ = write!(page, "| {} |", spec.title);
        for fill in Fill::ALL {
            let cell = results.cell(at, fill, row);
            let _ = write!(page, " {} | {} | {:.2} |", time(cell.library), time(cell.flat), cell.ratio);
        }
        page.push('\n');
    }
}

/// Calls on a name that many locks hold.
fn beside_table(page: &mut String, beside: &[[Whole; HOLDERS.len()]]) {
    let Size { resources, locks } = SIZES[SIZES.len() - 1];
    let _ = write!(
        page,
        "\n## Beside many holders\n\n\
         Tables of R {resources}, L {locks}, and calls on a name that few or many locks hold in CR, made by `rust/bench/src/beside.rs`. In \
         brackets is what a call takes beside the check: a release that is refused after it was timed right before; some tens of nanoseconds \
         are noise. All \
         that a call has to know of held modes is counted in the resource's record. A lock that is granted goes to the end of the grant \
         queue; the library's check has passed it and hands it on, flat walks along the queue. In the last row the locks wait for CR, and \
         the release grants them all.\n\n| entry |"
    );
    for holders in HOLDERS {
        let _ = write!(page, " {holders} holders: library | flat | ratio |");
    }
    let _ = write!(page, "\n|---|{}\n", "--:|--:|--:|".repeat(HOLDERS.len()));
    let shown = |call: f64, check: f64| format!("{} ({})", time(call), time(call - check));
    for (spec, cells) in BESIDE.iter().zip(beside) {
        let _ = write!(page, "| {} |", spec.title);
        for Whole { check, call } in cells {
            let _ = write!(page, " {} | {} | {:.2} |", shown(call.library, check.library), shown(call.flat, check.flat), call.ratio);
        }
        page.push('\n');
    }
}

/// Break on the worst tables that were found.
fn worst_table(page: &mut String, worst: &[Cell]) {
    let Size { resources, locks } = SIZES[SIZES.len() - 1];
    let _ = write!(
        page,
        "\n## Break on its worst tables\n\n\
         The sound tables of R {resources}, L {locks} on which break was found to take longest, made by `rust/bench/src/worst.rs`. Break rules out \
         the locks that lead to none that is left, and those that none that is left leads to, in passes; then it searches from each lock that \
         is left, in the order of the blocked chain, until one leads back to itself. A \"crowd\" is a client that holds EX on a name, where \
         another one converts many locks from NL to EX, and that waits there for each other mode twice: a circle of its own, in which ten locks \
         look at all holders. Flat looks at each lock once, as Tarjan's search does.\n\n\
         | tables | what is in them | library | flat | ratio |\n|---|---|--:|--:|--:|\n"
    );
    for (spec, cell) in WORST.iter().zip(worst) {
        let _ = writeln!(page, "| {} | {} | {} | {} | {:.2} |", spec.title, spec.what, time(cell.library), time(cell.flat), cell.ratio);
    }
}

/// The stack that break takes: measured by another program, so the numbers stand here.
fn stack_table(page: &mut String) {
    page.push_str(
        "\n## Break's stack\n\n\
         Bytes on x86-64. A level of the recursion is what `deadlock_search::search` pushes, its frame and the return address in the compiled \
         object, and the same by a run: `tests/stack_test.c` paints a thread's stack and makes the call on tables of two sizes whose search passes \
         every lock. R-4 made it smaller: lock numbers have 16 bits, and the owners in a lock's way are found by a walk along the holders and no \
         longer written down in each level. The arrays of the whole search take more than before: they have links and lists now.\n\n\
         | | before R-4, older kit | R-4, older kit | rattle-kit-13f |\n|---|--:|--:|--:|\n\
         | a level of the recursion | 448 | 176 | 96 |\n\
         | of it arrays | 256 | 0 | 0 |\n\
         | break at its deepest, 1,024 locks that are all blocked | 466,135 | 198,527 | 116,471 |\n\
         | break that finds no deadlock | 12,711 | 20,903 | 20,855 |\n",
    );
}

/// Where the library is behind, and what document 01's table of 384 entries has to do with it.
fn required_form(page: &mut String, results: &Results) {
    page.push_str("\n## Where the library is behind\n\nRatios above 1.0");
    for (at, size) in SIZES.iter().enumerate() {
        let (count, titles) = results.behind(at);
        let _ = write!(page, "{} R {}, L {}: {count}", if at == 0 { ". Tables of" } else { ";" }, size.resources, size.locks);
        if count > 0 {
            let _ = write!(page, " ({})", titles.join("; "));
        }
    }
    page.push_str(
        ".\n\n\
         Document 01 asks that grants are decided by a constant table of 64 by 6 entries. The compiler builds its 384 bytes on the stack at each \
         use. That is 20 to 25 ns a decision, where masks take 2: on the smallest tables more than the \
         library's lead. A request pays it where somebody holds a mode on its name, unless it has to queue behind others; a conversion that is \
         not down; release, cancel and purge where the sweep finds a head, and break where its sweep finds a head. Where nobody holds a mode, the \
         table is not asked. The soundness check asks masks.\n",
    );
}

/// How much of a call is the check of the tables.
fn share_table(page: &mut String, results: &Results) {
    page.push_str(
        "\n## Share of the soundness check\n\n\
         `zamgyorud_sound` timed alone, as a part of the library's call (in brackets the same for flat). Start doesn't check; load and holder \
         check an image. Above 100 % is noise, or a check that was quicker alone.\n\n| entry |",
    );
    for size in SIZES {
        let _ = write!(page, " R {}, L {}, full |", size.resources, size.locks);
    }
    let Size { resources, locks } = SIZES[SIZES.len() - 1];
    let _ = write!(page, " R {resources}, L {locks}, one name |\n|---|{}\n", "--:|".repeat(SIZES.len() + 1));
    let sound = Results::row(SOUND);
    let share = |size: usize, fill: Fill, row: usize| {
        let (alone, call) = (results.cell(size, fill, sound), results.cell(size, fill, row));
        format!(" {:.0} % ({:.0} %) |", 100.0 * alone.library / call.library, 100.0 * alone.flat / call.flat)
    };
    for (row, spec) in ROWS.iter().enumerate().filter(|(row, spec)| *row != sound && spec.title != "start") {
        let columns: String = (0..SIZES.len()).map(|size| share(size, Fill::Full, row)).collect();
        let _ = writeln!(page, "| {} |{columns}{}", spec.title, share(SIZES.len() - 1, Fill::Deep, row));
    }
}

/// How times grow from one size to the next.
fn growth_table(page: &mut String, results: &Results) {
    page.push_str(
        "\n## Growth with R and L\n\n\
         How many times longer a call takes on full tables of the next size: from R 4, L 8 to R 64, L 256 the tables become about 30 times as \
         large, from there to R 256, L 1024 four times.\n\n\
         | entry | library, to 64, 256 | to 256, 1024 | flat, to 64, 256 | to 256, 1024 | one name: library, to 64, 256 | to 256, 1024 |\n\
         |---|--:|--:|--:|--:|--:|--:|\n",
    );
    for (row, spec) in ROWS.iter().enumerate() {
        let grown = |fill: Fill, of: fn(Cell) -> f64| {
            let times: Vec<f64> = (0..SIZES.len()).map(|size| of(results.cell(size, fill, row))).collect();
            format!(" {:.1} | {:.1} |", times[1] / times[0], times[2] / times[1])
        };
        let library: fn(Cell) -> f64 = |cell| cell.library;
        let flat: fn(Cell) -> f64 = |cell| cell.flat;
        let _ = writeln!(page, "| {} |{}{}{}", spec.title, grown(Fill::Full, library), grown(Fill::Full, flat), grown(Fill::Deep, library));
    }
}
