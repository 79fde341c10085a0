//! A case: everything that is handed to the calls, and its text. Knows nothing of the library.
use std::io::{self, BufRead, Write};

#[derive(Clone, Debug, Default)]
pub struct Drawing {
    pub nodes: Vec<u32>,
    pub operations: Vec<u32>,
    pub source_lengths: Vec<u32>,
    pub sources: Vec<u32>,
    pub target_lengths: Vec<u32>,
    pub targets: Vec<u32>,
}

#[derive(Clone, Debug, Default)]
pub struct Map {
    pub target: u32,
    pub entries: Vec<u32>,
}

#[derive(Clone, Debug, Default)]
pub struct Case {
    pub name: String,
    /// The drawing that most calls look at: the maps' target.
    pub drawing: Drawing,
    /// The maps' source.
    pub part: Drawing,
    pub w: Map,
    pub x: Map,
    pub inputs: Vec<u32>,
    pub outputs: Vec<u32>,
    pub values: Vec<u32>,
    /// By how many words each workspace is shorter than needed.
    pub workspace_short: u32,
    /// The same for each output of a call, in 01's order.
    pub output_short: Vec<u32>,
}

/// Reads cases from standard input and prints the answers to each, a line for each call. Ends the program if it cannot.
pub fn print_answers(program: &str, answers: impl Fn(&Case) -> Vec<(&'static str, String)>) {
    if let Err(error) = print_all(answers) {
        eprintln!("{program}: {error}");
        std::process::exit(2);
    }
}

fn print_all(answers: impl Fn(&Case) -> Vec<(&'static str, String)>) -> io::Result<()> {
    let mut out = io::BufWriter::new(io::stdout().lock());
    for case in Cases::new(io::stdin().lock().lines()) {
        let case = case?;
        writeln!(out, "case {}", case.name)?;
        for (call, answer) in answers(&case) {
            writeln!(out, "{call} {answer}")?;
        }
    }
    out.flush()
}

/// The cases of a text, one by one.
pub struct Cases<L> {
    lines: L,
    next: Option<Case>,
}

impl<L: Iterator<Item = io::Result<String>>> Cases<L> {
    pub fn new(lines: L) -> Self {
        Cases { lines, next: None }
    }
}

impl<L: Iterator<Item = io::Result<String>>> Iterator for Cases<L> {
    type Item = io::Result<Case>;

    fn next(&mut self) -> Option<io::Result<Case>> {
        for line in self.lines.by_ref() {
            let line = match line {
                Ok(line) => line,
                Err(error) => return Some(Err(error)),
            };
            let line = line.trim();
            let (key, rest) = line.split_once(' ').unwrap_or((line, ""));
            if key == "case" {
                let name = rest.trim().to_string();
                let case = Case { name, ..Case::default() };
                if let Some(done) = self.next.replace(case) {
                    return Some(Ok(done));
                }
            } else if !(key.is_empty() || key.starts_with('#') || key == "expect") {
                let stored = match &mut self.next {
                    Some(case) => numbers(rest).and_then(|list| store(case, key, list)),
                    None => None,
                };
                if stored.is_none() {
                    let error = format!("not a line of a case: {line}");
                    return Some(Err(io::Error::new(io::ErrorKind::InvalidData, error)));
                }
            }
        }
        self.next.take().map(Ok)
    }
}

/// Numbers between blanks; `7*3` stands for `7 7 7`.
fn numbers(text: &str) -> Option<Vec<u32>> {
    let mut list = Vec::new();
    for word in text.split_whitespace() {
        let (number, times) = word.split_once('*').unwrap_or((word, "1"));
        let times: usize = times.parse().ok()?;
        list.resize(list.len() + times, number.parse().ok()?);
    }
    Some(list)
}

fn store(case: &mut Case, key: &str, list: Vec<u32>) -> Option<()> {
    let number = match list[..] {
        [number] => Some(number),
        _ => None,
    };
    match key {
        "w_target" => case.w.target = number?,
        "w" => case.w.entries = list,
        "x_target" => case.x.target = number?,
        "x" => case.x.entries = list,
        "inputs" => case.inputs = list,
        "outputs" => case.outputs = list,
        "values" => case.values = list,
        "workspace_short" => case.workspace_short = number?,
        "output_short" => case.output_short = list,
        _ => match key.strip_prefix("part_") {
            Some(key) => store_in_drawing(&mut case.part, key, list)?,
            None => store_in_drawing(&mut case.drawing, key, list)?,
        },
    }
    Some(())
}

fn store_in_drawing(drawing: &mut Drawing, key: &str, list: Vec<u32>) -> Option<()> {
    match key {
        "nodes" => drawing.nodes = list,
        "operations" => drawing.operations = list,
        "source_lengths" => drawing.source_lengths = list,
        "sources" => drawing.sources = list,
        "target_lengths" => drawing.target_lengths = list,
        "targets" => drawing.targets = list,
        _ => return None,
    }
    Some(())
}
