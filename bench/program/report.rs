//! The table, as Markdown that can be read as it is.
use crate::drawings::FAMILIES;
use crate::measured::{Row, CALLS};
use std::fmt::Write;
use std::time::Duration;

pub fn text(rows: &[Row], sizes: &[u32]) -> String {
    let mut text = String::new();
    for (family, what, _) in FAMILIES {
        let own: Vec<&Row> = rows.iter().filter(|row| row.family == family).collect();
        if !own.is_empty() {
            writeln!(text, "## {family}\n\n{}: {what}.\n", capital(family)).unwrap();
            table(&mut text, &own, sizes);
        }
    }
    summary(&mut text, rows, sizes[sizes.len() - 1]);
    text
}

/// A line for each call, a column for each size: the Rust's time, the port's, and how many times as fast it is.
fn table(text: &mut String, rows: &[&Row], sizes: &[u32]) {
    let heads: Vec<String> = sizes.iter().map(|n| format!("n = {n}")).collect();
    writeln!(text, "| call | {} | grows, Rust | grows, port |", heads.join(" | ")).unwrap();
    writeln!(text, "|---|{}---|---|", "---|".repeat(sizes.len())).unwrap();
    for call in CALLS {
        let own: Vec<&&Row> = rows.iter().filter(|row| row.call == call).collect();
        if own.is_empty() {
            continue;
        }
        let cells: Vec<String> = own.iter().map(|row| cell(row)).collect();
        let rust: Vec<Option<Duration>> = own.iter().map(|row| row.rust).collect();
        let port: Vec<Option<Duration>> = own.iter().map(|row| Some(row.port)).collect();
        let (rust, port) = (growth(&rust, sizes), growth(&port, sizes));
        writeln!(text, "| {call} | {} | {rust} | {port} |", cells.join(" | ")).unwrap();
    }
    writeln!(text).unwrap();
}

fn cell(row: &Row) -> String {
    match row.rust {
        Some(rust) => format!("{} : {} = **{}**", shown(rust), shown(row.port), times(ratio(rust, row.port))),
        None => format!("no room : {}", shown(row.port)),
    }
}

fn ratio(rust: Duration, port: Duration) -> f64 {
    rust.as_secs_f64() / port.as_secs_f64().max(1e-9)
}

fn times(ratio: f64) -> String {
    if ratio < 10.0 {
        format!("{ratio:.1}")
    } else {
        format!("{ratio:.0}")
    }
}

fn shown(time: Duration) -> String {
    match time.as_secs_f64() * 1e6 {
        us if us < 10.0 => format!("{us:.2} us"),
        us if us < 1000.0 => format!("{us:.0} us"),
        us if us < 1e6 => format!("{:.1} ms", us / 1e3),
        us => format!("{:.1} s", us / 1e6),
    }
}

/// The power of n that the time grows with, from the middle of the sizes to the last.
fn growth(times: &[Option<Duration>], sizes: &[u32]) -> String {
    let known: Vec<(f64, f64)> = times
        .iter()
        .zip(sizes)
        .filter_map(|(time, &n)| Some((f64::from(n).ln(), time.as_ref()?.as_secs_f64().ln())))
        .collect();
    match known[..] {
        [.., first, last] => format!("n^{:.1}", (last.1 - first.1) / (last.0 - first.0)),
        _ => "-".to_string(),
    }
}

/// The least ratio of some calls over some drawings at one size, or anywhere.
fn least<'a>(rows: impl Iterator<Item = &'a Row>) -> Option<(f64, &'a Row)> {
    let ratios = rows.filter_map(|row| Some((ratio(row.rust?, row.port), row)));
    ratios.min_by(|left, right| left.0.total_cmp(&right.0))
}

fn summary(text: &mut String, rows: &[Row], largest: u32) {
    let on = |calls: &'static [&'static str], families: &'static [&'static str]| {
        rows.iter().filter(move |row| {
            row.n == largest && calls.contains(&row.call) && families.contains(&row.family)
        })
    };
    const WALKS: &[&str] = &["is_acyclic", "layered_operations", "is_convex_subgraph"];
    writeln!(text, "## Aims\n\n| aim | least seen |\n|---|---|").unwrap();
    let mut line = |aim: &str, found: Option<(f64, &Row)>| {
        let seen = found
            .map(|(ratio, row)| format!("{} ({}, {}, n = {})", times(ratio), row.call, row.family, row.n));
        writeln!(text, "| {aim} | {} |", seen.unwrap_or("not measured".to_string())).unwrap();
    };
    let tens =
        format!("10 times at n = {largest}: is_acyclic, layered_operations, convexity on DAGs and chains");
    line(&tens, least(on(WALKS, &["chain", "layered DAG"])));
    line(
        &format!("50 times at n = {largest}: eval on DAGs and chains"),
        least(on(&["eval"], &["chain", "layered DAG"])),
    );
    line(
        &format!("1,000 times at n = {largest}: walks and eval on the hub of operations"),
        least(on(&["layer", "layered_operations", "eval"], &["hub of operations"])),
    );
    line(
        &format!("1,000 times at n = {largest}: walks on the hub of nodes"),
        least(on(&["is_acyclic", "is_convex_subgraph"], &["hub of nodes"])),
    );
    line("never slower: every call, drawing and size", least(rows.iter()));
}

fn capital(word: &str) -> String {
    word[..1].to_uppercase() + &word[1..]
}
