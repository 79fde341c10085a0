//! One call on one input: the best time of the Rust and of the port, and whether they agree.
use crate::drawings::Input;
use open_hypergraphs::oracle::published::{self, Answer, Built, Lists};
use std::time::{Duration, Instant};
use tiwelzam::{Boundary, Drawing, Map, Maps, Refusal};

pub const CALLS: [&str; 12] = [
    "check_drawing",
    "source_converse",
    "target_converse",
    "node_adjacency",
    "operation_adjacency",
    "is_acyclic",
    "layer",
    "layered_operations",
    "validate",
    "is_monomorphism",
    "is_convex_subgraph",
    "eval",
];

pub struct Row {
    pub family: &'static str,
    pub call: &'static str,
    pub n: u32,
    /// Best times; none for the Rust where it would take more memory than there is.
    pub rust: Option<Duration>,
    pub port: Duration,
    pub differs: bool,
}

/// How much memory the Rust takes for each entry of an adjacency that it builds, as seen.
const BYTES_PER_ENTRY: u64 = 40;

pub fn measure(family: &'static str, n: u32, call: &'static str, input: &Input, quick: bool) -> Option<Row> {
    if call == "eval" && !input.evaluates {
        return None;
    }
    let least = Duration::from_millis(if quick { 5 } else { 40 });
    let entries = entries_built(&input.target, call);
    let affordable = entries * BYTES_PER_ENTRY < memory_available() / 10 * 6;
    let rust = affordable.then(|| rust_best(input, call, least));
    let (port, lists) = port_best(input, call, entries as usize, least);
    let differs = rust.as_ref().is_some_and(|(_, answer)| !answer.is(&lists));
    if differs {
        eprintln!("\n{family}, n = {n}, {call}: the two do not agree");
    }
    Some(Row { family, call, n, rust: rust.map(|(time, _)| time), port, differs })
}

/// The best time of several runs, and the last result. What is prepared for a run is not timed.
fn best<P, R>(least: Duration, mut prepare: impl FnMut() -> P, mut run: impl FnMut(P) -> R) -> (Duration, R) {
    let (mut best, mut total) = (Duration::MAX, Duration::ZERO);
    for runs in 1.. {
        let prepared = prepare();
        let start = Instant::now();
        let result = run(prepared);
        let time = start.elapsed();
        best = best.min(time);
        total += time;
        if (runs >= 3 && total >= least) || total >= Duration::from_secs(2) {
            return (best, result);
        }
    }
    unreachable!()
}

// ---- The Rust ------------------------------------------------------------------------------------

fn rust_best(input: &Input, call: &str, least: Duration) -> (Duration, Answer) {
    let boundary = [&input.inputs[..], &input.outputs];
    let built = Built::new(&input.target, &input.source, [&input.w, &input.x], boundary, &input.values);
    let plain = |run: fn(&Built) -> Answer| best(least, || (), |()| run(&built));
    match call {
        "check_drawing" => best(least, || built.arrays(), published::check_drawing),
        "source_converse" => plain(Built::source_converse),
        "target_converse" => plain(Built::target_converse),
        "node_adjacency" => plain(Built::node_adjacency),
        "operation_adjacency" => plain(Built::operation_adjacency),
        "is_acyclic" => plain(Built::is_acyclic),
        "layer" => plain(Built::layer),
        "layered_operations" => plain(Built::layered_operations),
        "validate" => best(least, || built.arrow(), published::validate),
        "is_monomorphism" => best(least, || built.arrow(), published::is_monomorphism),
        "is_convex_subgraph" => best(least, || built.arrow(), published::is_convex_subgraph),
        "eval" => plain(Built::eval),
        _ => unreachable!("{call} is no call"),
    }
}

// ---- The port ------------------------------------------------------------------------------------

/// The best time, and the lists that were written; a yes is the list of 1, a refused evaluation no list.
fn port_best(input: &Input, call: &str, entries: usize, least: Duration) -> (Duration, Vec<Vec<u32>>) {
    let (d, source) = (borrowed(&input.target), borrowed(&input.source));
    let map = |entries, target: usize| Map { entries, target: target as u32 };
    let maps = Maps { w: map(&input.w, d.nodes.len()), x: map(&input.x, d.operations.len()) };
    let boundary = Boundary { inputs: &input.inputs, outputs: &input.outputs };
    let (n, m) = (d.nodes.len(), d.operations.len());
    let needs = match call {
        "source_converse" => vec![n, d.sources.len()],
        "target_converse" => vec![n, d.targets.len()],
        "node_adjacency" => vec![n, entries],
        "operation_adjacency" => vec![m, entries],
        "layer" => vec![m, m],
        "layered_operations" => vec![m, m + 1, m],
        "eval" => vec![boundary.outputs.len()],
        _ => vec![],
    };
    let mut rooms: Vec<Vec<u32>> = needs.into_iter().map(|need| vec![0; need]).collect();
    let workspace = std::cell::RefCell::new(vec![0; d.workspace_need()]);
    let noise = || workspace.borrow_mut().fill(0xabababab);
    let yes = |verdict: Result<bool, Refusal>| verdict.map(u32::from);
    let written = |done: Result<(), Refusal>| done.map(|()| 1);
    let (time, answer) = best(least, noise, |()| {
        let ws = &mut workspace.borrow_mut()[..];
        match (call, &mut rooms[..]) {
            ("check_drawing", _) => written(d.check()),
            ("source_converse", [a, b]) => written(d.source_converse_into(a, b, ws)),
            ("target_converse", [a, b]) => written(d.target_converse_into(a, b, ws)),
            ("node_adjacency", [a, b]) => written(d.node_adjacency_into(a, b, ws)),
            ("operation_adjacency", [a, b]) => written(d.operation_adjacency_into(a, b, ws)),
            ("layer", [a, b]) => written(d.layer_into(a, b, ws)),
            ("layered_operations", [a, b, c]) => written(d.layered_operations_into(a, b, c, ws)),
            ("eval", [out]) => written(d.eval_into(boundary, &input.values, out, ws)),
            ("is_acyclic", _) => yes(d.is_acyclic_in(ws)),
            ("is_monomorphism", _) => yes(maps.is_monomorphism_in(ws)),
            ("is_convex_subgraph", _) => yes(maps.is_convex_subgraph_in(&source, &d, ws)),
            ("validate", _) => written(maps.validate(&source, &d)),
            _ => unreachable!("{call} is no call"),
        }
    });
    let lists = match answer {
        Err(Refusal::Unplaced) => vec![],
        Err(refusal) => panic!("{call} is refused: {refusal}"),
        Ok(verdict) if rooms.is_empty() => vec![vec![verdict]],
        Ok(_) => rooms,
    };
    (time, lists)
}

fn borrowed([nodes, operations, source_lengths, sources, target_lengths, targets]: &Lists) -> Drawing<'_> {
    Drawing { nodes, operations, source_lengths, sources, target_lengths, targets }
}

// ---- Memory --------------------------------------------------------------------------------------

/// How many entries the adjacency has that the Rust builds for a call.
fn entries_built([nodes, _, sl, sv, tl, tv]: &Lists, call: &str) -> u64 {
    let by_node = || sl.iter().zip(tl).map(|(&s, &t)| u64::from(s) * u64::from(t)).sum();
    let by_operation = || {
        let mut listed = vec![0; nodes.len()];
        sv.iter().for_each(|&node| listed[node as usize] += 1);
        tv.iter().map(|&node| listed[node as usize]).sum()
    };
    match call {
        "node_adjacency" | "is_acyclic" | "is_convex_subgraph" => by_node(),
        "operation_adjacency" | "layer" | "layered_operations" | "eval" => by_operation(),
        _ => 0,
    }
}

/// Free memory in bytes, as the system says; a gigabyte where it does not.
fn memory_available() -> u64 {
    let text = std::fs::read_to_string("/proc/meminfo").unwrap_or_default();
    let line = text.lines().find_map(|line| line.strip_prefix("MemAvailable:"));
    let kilobytes = line.and_then(|rest| rest.trim().trim_end_matches(" kB").parse::<u64>().ok());
    kilobytes.map_or(1 << 30, |kilobytes| kilobytes << 10)
}
