//! Measures every call of the published Rust and of the port on the same inputs; prints a table.
mod drawings;
mod measured;
mod report;

use drawings::FAMILIES;
use measured::{measure, Row, CALLS};

fn main() {
    let quick = std::env::args().any(|word| word == "--quick");
    let sizes: &[u32] = if quick { &[64, 512] } else { &[64, 256, 1024, 4096] };
    let mut rows: Vec<Row> = Vec::new();
    for &(family, _, make) in &FAMILIES {
        for &n in sizes {
            eprintln!("{family}, n = {n}");
            let input = make(n);
            rows.extend(CALLS.iter().filter_map(|call| measure(family, n, call, &input, quick)));
        }
    }
    print!("{}", report::text(&rows, sizes));
    if rows.iter().any(|row| row.differs) {
        println!("the two do not agree");
        std::process::exit(1);
    }
}
