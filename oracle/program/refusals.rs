//! The refusals that the library does not have: 1, 2, 3, 4, 12 and 11, in 01's order for each call.
use super::case::{Case, Drawing, Map};

const LIMIT: usize = 4096;
const VALUES_LIMIT: usize = 16384;

/// The number of a refusal, if there is one.
pub type Refusal = Option<u32>;

fn when(fault: bool, number: u32) -> Refusal {
    fault.then_some(number)
}

fn drawing_over_limit(d: &Drawing) -> bool {
    d.nodes.len() > LIMIT
        || d.operations.len() > LIMIT
        || d.sources.len() > VALUES_LIMIT
        || d.targets.len() > VALUES_LIMIT
}

fn map_over_limit(map: &Map) -> bool {
    map.target as usize > LIMIT || map.entries.len() > LIMIT
}

fn lengths_wrong(lengths: &[u32], operations: usize, values: usize) -> bool {
    lengths.len() != operations || lengths.iter().map(|&l| l as usize).sum::<usize>() != values
}

fn not_below(list: &[u32], bound: usize) -> bool {
    list.iter().any(|&value| value as usize >= bound)
}

/// 2, then 3.
pub fn drawing_fault(d: &Drawing) -> Refusal {
    let (n, m) = (d.nodes.len(), d.operations.len());
    let lengths = lengths_wrong(&d.source_lengths, m, d.sources.len())
        || lengths_wrong(&d.target_lengths, m, d.targets.len());
    when(lengths, 2).or_else(|| when(not_below(&d.sources, n) || not_below(&d.targets, n), 3))
}

pub fn maps_fault(case: &Case) -> Refusal {
    let wrong = |map: &Map| not_below(&map.entries, map.target as usize);
    when(wrong(&case.w) || wrong(&case.x), 4)
}

pub fn boundary_fault(case: &Case) -> Refusal {
    let n = case.drawing.nodes.len();
    when(not_below(&case.inputs, n) || not_below(&case.outputs, n), 12)
}

pub fn drawing_refusal(case: &Case) -> Refusal {
    when(drawing_over_limit(&case.drawing), 1).or_else(|| drawing_fault(&case.drawing))
}

pub fn maps_refusal(case: &Case) -> Refusal {
    when(map_over_limit(&case.w) || map_over_limit(&case.x), 1).or_else(|| maps_fault(case))
}

pub fn boundary_refusal(case: &Case) -> Refusal {
    let long = case.inputs.len() > LIMIT || case.outputs.len() > LIMIT;
    when(drawing_over_limit(&case.drawing) || long, 1)
        .or_else(|| drawing_fault(&case.drawing))
        .or_else(|| boundary_fault(case))
}

/// For the calls that are lent two drawings and the maps between them.
pub fn arrow_refusal(case: &Case) -> Refusal {
    let drawings = drawing_over_limit(&case.part) || drawing_over_limit(&case.drawing);
    when(drawings || map_over_limit(&case.w) || map_over_limit(&case.x), 1)
        .or_else(|| drawing_fault(&case.part))
        .or_else(|| drawing_fault(&case.drawing))
        .or_else(|| maps_fault(case))
}

pub fn eval_refusal(case: &Case) -> Refusal {
    when(case.values.len() > LIMIT, 1).or_else(|| boundary_refusal(case))
}

/// 11, for a call that needs this many words of workspace and of each output.
pub fn room_refusal(case: &Case, workspace: usize, outputs: &[usize]) -> Refusal {
    let short = |need: usize, less: u32| need > 0 && less > 0;
    let output_short = outputs.iter().zip(&case.output_short).any(|(&need, &less)| short(need, less));
    when(short(workspace, case.workspace_short) || output_short, 11)
}

/// The workspace that a call over the drawing needs.
pub fn workspace_need(d: &Drawing) -> usize {
    8 * (d.nodes.len() + d.operations.len()) + 2 * (d.sources.len() + d.targets.len()) + 8
}
