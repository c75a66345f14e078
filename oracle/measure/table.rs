//! What is printed: the table with its ratios, or where the instructions go.

use crate::case::{Case, Cost};
use crate::gauge::Gauge;

pub struct Table {
    /// Each case's name, chunk size and ratio.
    ratios: Vec<(&'static str, usize, f64)>,
}

impl Table {
    pub fn begin(unit: &str, sizes: &[usize]) -> Table {
        println!("{unit} for each byte of the stream; a ratio over 1: the library costs less\n");
        print!("{:20}", "chunks of");
        sizes.iter().for_each(|size| print!("{size:>26}"));
        print!("\n{:20}", "");
        sizes.iter().for_each(|_| print!("{:>10}{:>8}{:>8}", "Rust", "library", "ratio"));
        println!();
        Table { ratios: Vec::new() }
    }

    /// A row, with a cost for each size.
    pub fn put(&mut self, name: &'static str, sizes: &[usize], costs: &[Cost]) {
        put_costs(name, costs);
        let ratios = sizes.iter().zip(costs).map(|(size, cost)| (name, *size, cost.ratio()));
        self.ratios.extend(ratios);
    }

    /// The mean and the worst of the rows; nothing where there was none.
    pub fn end(&self) {
        if self.ratios.is_empty() {
            return;
        }
        let logs: f64 = self.ratios.iter().map(|(_, _, ratio)| ratio.ln()).sum();
        let mean = (logs / self.ratios.len() as f64).exp();
        let worst = self.ratios.iter().min_by(|a, b| a.2.total_cmp(&b.2));
        let (name, size, ratio) = worst.expect("a row");
        println!("\ngeometric mean {mean:.2}, worst {ratio:.2} ({name}, chunks of {size})");
    }
}

fn put_costs(name: &str, costs: &[Cost]) {
    print!("{name:20}");
    for cost in costs {
        let each = |total: u64| total as f64 / cost.bytes as f64;
        print!("{:10.3}{:8.3}{:8.2}", each(cost.rust), each(cost.library), cost.ratio());
    }
    println!();
}

/// The row with parity, below the table and not in its mean: the library in mode 18 beside the Rust in
/// mode 2, and beside itself in mode 2, on the same stream.
pub fn put_parity(name: &str, rust: &[Cost], library: &[Cost]) {
    println!("\n{name}, beside the same stream without parity, which the Rust has not");
    put_costs("the Rust, no parity", rust);
    put_costs("library, no parity", library);
}

/// Where the instructions of both sides go, for each answer and for each chunk; what is under a
/// thousandth is left out.
pub fn show_functions(case: &mut Case, gauge: &mut Gauge) {
    let (rust, said) = case.rust(|pass| gauge.functions(pass));
    let (library, _) = case.library(|pass| gauge.functions(pass));
    let (answers, chunks) = (said.frames + said.plain, case.chunks.len() as u64);
    println!("\n{}, chunks of {}: {answers} answers, {chunks} chunks", case.name, case.size);
    println!("{:>14}{:>12}{:>12}", "instructions", "an answer", "a chunk");
    for (side, functions) in [("the Rust", rust), ("the library", library)] {
        let total: u64 = functions.iter().map(|(count, _)| count).sum();
        let lines = functions.iter().filter(|(count, _)| *count * 1000 >= total);
        show_line(total, answers, chunks, side);
        lines.for_each(|(count, name)| {
            show_line(*count, answers, chunks, &format!("  {}", readable(name)));
        });
    }
}

fn show_line(count: u64, answers: u64, chunks: u64, name: &str) {
    let each = |of: u64| match of {
        0 => "none".to_string(),
        _ => format!("{:.1}", count as f64 / of as f64),
    };
    println!("{count:14}{:>12}{:>12}  {name}", each(answers), each(chunks));
}

/// A symbol of rustc's without its lengths, type arguments and hash; others as they are.
fn readable(symbol: &str) -> String {
    let Some(mut rest) = symbol.strip_prefix("_ZN") else { return symbol.to_string() };
    let mut parts = Vec::new();
    while let Some(digits) = rest.find(|c: char| !c.is_ascii_digit()) {
        let Ok(length) = rest[..digits].parse::<usize>() else { break };
        let (part, later) = rest[digits..].split_at(length);
        parts.push(part.split('$').next().unwrap_or(part));
        rest = later;
    }
    parts.pop();
    parts.join("::")
}
