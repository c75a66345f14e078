//! The measuring program: the Rust and the library in one process, on the same buffers.

mod case;
mod ears;
mod gauge;
#[path = "../program/src/random.rs"]
#[allow(dead_code)]
mod random;
mod rows;
mod sides;
mod table;

use case::Case;
use gauge::Gauge;
use rows::{Row, ROWS, WITH_PARITY};
use table::Table;

const SIZES: [usize; 3] = [64, 1024, 16_384];

/// The words of the command line.
#[derive(Default)]
struct Options {
    count: bool,
    functions: bool,
    view: bool,
    row: Option<String>,
}

impl Options {
    fn read(mut words: impl Iterator<Item = String>) -> Result<Options, String> {
        let mut options = Options::default();
        while let Some(word) = words.next() {
            match word.as_str() {
                "--time" => options.count = false,
                "--count" => options.count = true,
                "--functions" => options.functions = true,
                "--view" => options.view = true,
                "--row" => options.row = Some(words.next().ok_or("--row needs a row's name")?),
                _ => return Err(format!("there is no option {word}")),
            }
        }
        if options.functions && !options.count {
            return Err("--functions goes with --count".to_string());
        }
        Ok(options)
    }

    fn rows(&self) -> Result<Vec<&'static Row>, String> {
        let Some(name) = &self.row else { return Ok(ROWS.iter().collect()) };
        let row = all_rows().find(|row| row.name == name);
        let names = || all_rows().map(|row| row.name).collect::<Vec<_>>().join("; ");
        Ok(vec![row.ok_or_else(|| format!("there is no row {name}; the rows are: {}", names()))?])
    }
}

/// The table's rows, and the one below it.
fn all_rows() -> impl Iterator<Item = &'static Row> {
    ROWS.iter().chain([&WITH_PARITY])
}

/// Why a run ended early, and the exit status for it.
struct Ended(i32, String);

fn unable(what: String) -> Ended {
    Ended(2, what)
}

fn differs(what: String) -> Ended {
    Ended(1, what)
}

fn run() -> Result<(), Ended> {
    let options = Options::read(std::env::args().skip(1)).map_err(unable)?;
    let rows = options.rows().map_err(unable)?;
    let mut gauge = if options.count { Gauge::counting().map_err(unable)? } else { Gauge::Time };
    if options.functions {
        return show_functions(&options, &rows, &mut gauge);
    }
    let mut table = Table::begin(gauge.unit(), &SIZES);
    for row in rows.iter().filter(|row| row.name != WITH_PARITY.name) {
        let stream = row.stream();
        let cost = |size| Case::new(row, &stream, size, options.view).measure(&mut gauge);
        let costs: Result<Vec<_>, _> = SIZES.into_iter().map(cost).collect();
        table.put(row.name, &SIZES, &costs.map_err(differs)?);
    }
    table.end();
    if options.row.as_ref().is_none_or(|name| name == WITH_PARITY.name) {
        put_parity(&options, &mut gauge).map_err(differs)?;
    }
    Ok(())
}

/// The row with parity: beside the Rust without it, and beside the library without it.
fn put_parity(options: &Options, gauge: &mut Gauge) -> Result<(), String> {
    let stream = WITH_PARITY.stream();
    let mut cases = SIZES.map(|size| Case::new(&WITH_PARITY, &stream, size, options.view));
    let rust: Result<Vec<_>, _> = cases.iter_mut().map(|case| case.measure(gauge)).collect();
    let library: Vec<_> = cases.iter_mut().map(|case| case.measure_parity(gauge)).collect();
    table::put_parity(WITH_PARITY.name, &rust?, &library);
    Ok(())
}

fn show_functions(options: &Options, rows: &[&Row], gauge: &mut Gauge) -> Result<(), Ended> {
    for row in rows {
        let stream = row.stream();
        for size in SIZES {
            let mut case = Case::new(row, &stream, size, options.view);
            case.compare().map_err(differs)?;
            table::show_functions(&mut case, gauge);
        }
    }
    Ok(())
}

/// Exit status: 0 measured, 1 the answers differ, 2 could not be run.
fn main() {
    if let Err(Ended(status, what)) = run() {
        eprintln!("oracle: {what}");
        std::process::exit(status);
    }
}
