//! The printed tables.

/// The two Rusts that the library stands beside.
pub const RUST: [&str; 2] = ["Rust, platform", "Rust, stand-ins"];

/// What the numbers are, up to how many rounds there were.
pub const UNIT: &str = "ns a sample, least of ";

pub fn head(what: &str, columns: &[&str]) {
    print!("{what:28}");
    for column in columns {
        print!(" {column:>16}");
    }
    for column in &columns[1..] {
        print!(" {:>18}", format!("over {}", column.trim_start_matches("Rust, ")));
    }
    println!();
}

/// One line: nanoseconds for each of so many, then the first as a multiple of each other.
pub fn line(what: &str, many: usize, nanoseconds: &[f64]) {
    print!("{what:28}");
    for ns in nanoseconds {
        print!(" {:16.2}", ns / many as f64);
    }
    for ns in &nanoseconds[1..] {
        print!(" {:18.2}", nanoseconds[0] / ns);
    }
    println!();
}
