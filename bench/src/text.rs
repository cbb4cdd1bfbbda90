//! The table's lines: a label, then columns.

pub fn line(label: &str, cells: &[impl ToString]) {
    let cells: Vec<String> = cells.iter().map(ToString::to_string).collect();
    let columns: String = cells.iter().map(|cell| format!("{cell:>12}")).collect();
    println!("{label:<46}{columns}");
}

pub fn figures(label: &str, values: &[f64]) {
    let cells: Vec<String> = values.iter().copied().map(figure).collect();
    line(label, &cells);
}

/// Three digits that count, but no more than four behind the point.
pub fn figure(value: f64) -> String {
    let decimals = (2.0 - value.log10().floor()).clamp(0.0, 4.0) as usize;
    format!("{value:.decimals$}")
}
