//! The tables of a run, as markdown.

use crate::families::Case;
use crate::operations::Operation;

/// The median times on one case, in nanoseconds.
pub struct Times {
    pub label: String,
    pub yardstick: Option<f64>,
    pub plain: f64,
    pub library: f64,
}

impl Times {
    /// The library's time as a multiple of the yardstick's.
    fn to_yardstick(&self) -> Option<f64> {
        self.yardstick.map(|time| self.library / time)
    }

    /// The library's time as a multiple of plain Rust's.
    fn to_plain(&self) -> Option<f64> {
        Some(self.library / self.plain)
    }
}

/// Which case this is: family, size, costs and order.
pub fn label(operation: &Operation, case: &Case) -> String {
    let size = (operation.size)(case);
    let kind = format!("{:?}, {:?}", case.costs, case.order).to_lowercase();
    format!("{} | {size} | {kind}", case.family)
}

/// The head of a table.
const HEAD: &str = "\
| family | size | costs, order | yardstick µs | plain µs | library µs \
| library/yardstick | library/plain |
|---|---|---|---:|---:|---:|---:|---:|";

/// Prints the head of an operation's table.
pub fn print_head(operation: &Operation) {
    println!("\n## {}\n\n{HEAD}", operation.name);
}

/// Prints a row of an operation's table.
pub fn print_row(times: &Times) {
    let yardstick = times.yardstick.map_or("-".to_string(), microseconds);
    let to_yardstick = times.to_yardstick().map_or("-".to_string(), ratio);
    let to_plain = times.to_plain().map_or("-".to_string(), ratio);
    println!(
        "| {} | {yardstick} | {} | {} | {to_yardstick} | {to_plain} |",
        times.label,
        microseconds(times.plain),
        microseconds(times.library),
    );
}

/// A time in microseconds.
fn microseconds(nanoseconds: f64) -> String {
    format!("{:.2}", nanoseconds / 1000.0)
}

/// A ratio.
fn ratio(ratio: f64) -> String {
    format!("{ratio:.2}")
}

/// One line on an operation: mean and worst ratio to each of the two.
pub fn summary(name: &str, times: &[Times]) -> String {
    format!(
        "{name}: library/yardstick {}; library/plain {}",
        mean_and_worst(times, Times::to_yardstick),
        mean_and_worst(times, Times::to_plain)
    )
}

/// The geometric mean of ratios, and the worst with its case.
fn mean_and_worst(times: &[Times], ratio_of: fn(&Times) -> Option<f64>) -> String {
    let ratios: Vec<f64> = times.iter().filter_map(ratio_of).collect();
    let by_ratio = |a: &&Times, b: &&Times| ratio_of(a).partial_cmp(&ratio_of(b)).unwrap();
    let Some(worst) = times.iter().max_by(by_ratio).filter(|_| !ratios.is_empty()) else {
        return "none".to_string();
    };
    let logarithms: f64 = ratios.iter().map(|ratio| ratio.ln()).sum();
    format!(
        "mean {:.2}, worst {:.2} ({})",
        (logarithms / ratios.len() as f64).exp(),
        ratio_of(worst).unwrap_or(0.0),
        worst.label.replace(" | ", ", ")
    )
}
