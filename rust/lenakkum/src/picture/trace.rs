//! Amplitude rows as far as a picture can show them.

/// A stretch of a row, and the least and the largest in it.
pub struct Column {
    pub from: usize,
    pub to: usize,
    pub least: f64,
    pub largest: f64,
}

/// A row in so many columns, fewer than it has numbers. Each column has the next one's first number too, so that they
/// join.
pub fn columns(row: &[f64], count: usize) -> impl Iterator<Item = Column> + '_ {
    (0..count).map(move |i| {
        let (from, to) = (i * row.len() / count, (i + 1) * row.len() / count);
        let part = &row[from..(to + 1).min(row.len())];
        let least = part.iter().copied().fold(f64::INFINITY, f64::min);
        let largest = part.iter().copied().fold(f64::NEG_INFINITY, f64::max);
        Column { from, to, least, largest }
    })
}

/// The largest of all rows, and a little more; 1 where there is nothing above 0.
pub fn top(rows: &[&[f64]]) -> f64 {
    let largest = rows.iter().flat_map(|r| r.iter().copied()).filter(|a| a.is_finite()).fold(0.0, f64::max);
    if largest > 0.0 {
        1.08 * largest
    } else {
        1.0
    }
}
