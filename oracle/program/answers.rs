//! Every answer of the published library to one case.
use super::case::{Case, Drawing, Map};
use super::operation_table;
use super::refusals::*;
use crate::array::vec::{VecArray, VecKind};
use crate::finite_function::FiniteFunction;
use crate::indexed_coproduct::IndexedCoproduct;
use crate::semifinite::SemifiniteFunction;
use crate::strict::eval::eval;
use crate::strict::graph::{kahn, node_adjacency, operation_adjacency};
use crate::strict::hypergraph::{Hypergraph, HypergraphArrow, InvalidHypergraphArrow};
use crate::strict::layer::{layer, layered_operations};
use crate::strict::open_hypergraph::OpenHypergraph;
use crate::strict::relation::converse;
use std::cell::Cell;
use std::panic::{catch_unwind, AssertUnwindSafe};

/// An adjacency with more entries than this is not built; README.md says why.
const MOST_ENTRIES: usize = 1 << 20;

type Table = IndexedCoproduct<VecKind, FiniteFunction<VecKind>>;
type Graph<A> = Hypergraph<VecKind, u32, A>;
type Open<A> = OpenHypergraph<VecKind, u32, A>;

/// An operation's label with its output count: the closure of `eval` is told nothing else.
#[derive(Clone)]
struct CountedLabel {
    label: u32,
    outputs: usize,
}

/// The name of each call with its answer, in the order of README.md.
pub fn answers(case: &Case) -> Vec<(&'static str, String)> {
    let d = &case.drawing;
    let (n, m) = (d.nodes.len(), d.operations.len());
    let (drawing, arrow) = (drawing_refusal(case), arrow_refusal(case));
    let [nodes, operations] = adjacency_entries(case);

    let need = workspace_need(d);
    let room = |refusal: Refusal, outputs: &[usize]| {
        refusal.or_else(|| room_refusal(case, need, outputs)) // 11
    };
    let mut lines = Vec::new();
    let mut say = |call, answer| lines.push((call, answer));

    let constructs = || graph(d).is_some();
    say("drawing", checked(drawing, drawing_fault(d), constructs));
    let constructs = || function(&case.w).is_some() && function(&case.x).is_some();
    say("maps", checked(maps_refusal(case), maps_fault(case), constructs));
    let constructs = || boundary(&case.inputs, n).is_some() && boundary(&case.outputs, n).is_some();
    say("boundary", checked(boundary_refusal(case), boundary_fault(case), constructs));

    let refusal = room(drawing, &[n, d.sources.len()]);
    say("converse_sources", answer(refusal, 0, || table(converse(&built(d).s))));
    let refusal = room(drawing, &[n, d.targets.len()]);
    say("converse_targets", answer(refusal, 0, || table(converse(&built(d).t))));
    let refusal = room(drawing, &[n, nodes]);
    say("node_adjacency", answer(refusal, nodes, || table(node_adjacency(&built(d)))));
    let refusal = room(drawing, &[m, operations]);
    say("operation_adjacency", answer(refusal, operations, || table(operation_adjacency(&built(d)))));

    say("node_kahn", answer(drawing, nodes, || walked(node_adjacency(&built(d)))));
    say("operation_kahn", answer(drawing, operations, || walked(operation_adjacency(&built(d)))));
    let refusal = room(drawing, &[]);
    say("is_acyclic", answer(refusal, nodes, || yes_or_no(built(d).is_acyclic())));
    let refusal = room(drawing, &[m, m]);
    say("layer", answer(refusal, operations, || layer_of_each(d)));
    let refusal = room(drawing, &[m, m + 1, m]);
    say("layered_operations", answer(refusal, operations, || layers(d)));

    say("validate", answer(arrow, 0, || validate(case)));
    let need = case.w.target.max(case.x.target) as usize;
    let refusal = maps_refusal(case).or_else(|| room_refusal(case, need, &[]));
    say("is_monomorphism", answer(refusal, 0, || monomorphism(case)));
    say("is_convex_subgraph", answer(room(arrow, &[]), nodes, || convex(case)));
    let refusal = room(eval_refusal(case), &[case.outputs.len()]);
    say("eval", answer(refusal, operations, || evaluate(case)));
    lines
}

/// The line of a call: its refusal, or what the library says.
fn answer(refusal: Refusal, entries: usize, call: impl FnOnce() -> String) -> String {
    if let Some(number) = refusal {
        return refused(number);
    }
    if entries > MOST_ENTRIES {
        return "too large".to_string();
    }
    caught(call)
}

/// The line of a plain check; the library's constructors must agree with the fault found.
fn checked(refusal: Refusal, fault: Refusal, constructs: impl FnOnce() -> bool) -> String {
    let line = refusal.map_or("ok".to_string(), refused);
    if refusal == Some(1) || refusal != fault {
        return line; // of the limits, and of what the call looks at before, the constructors know nothing
    }
    match caught(|| yes_or_no(constructs())).as_str() {
        "yes" if fault.is_none() => line,
        "no" if fault.is_some() => line,
        other => format!("{line}, but the library constructs it: {other}"),
    }
}

fn caught(call: impl FnOnce() -> String) -> String {
    catch_unwind(AssertUnwindSafe(call)).unwrap_or_else(|panic| {
        let message = panic.downcast_ref::<String>().map(String::as_str);
        let message = message.or_else(|| panic.downcast_ref::<&str>().copied());
        format!("panic {}", message.unwrap_or("").lines().next().unwrap_or(""))
    })
}

fn refused(number: u32) -> String {
    format!("refused {number}")
}

fn yes_or_no(answer: bool) -> String {
    if answer { "yes" } else { "no" }.to_string()
}

fn list<T: ToString>(items: &[T]) -> String {
    let words: Vec<String> = items.iter().map(T::to_string).collect();
    format!("[{}]", words.join(" "))
}

fn table(table: Table) -> String {
    format!("{} {}", list(&table.sources.table.0), list(&table.values.table.0))
}

/// How many entries the node and the operation adjacency have; none where there is no drawing.
fn adjacency_entries(case: &Case) -> [usize; 2] {
    let d = &case.drawing;
    if drawing_refusal(case).is_some() {
        return [0, 0];
    }
    let lengths = d.source_lengths.iter().zip(&d.target_lengths);
    let by_node = lengths.map(|(&s, &t)| s as usize * t as usize).sum();
    let mut listed = vec![0; d.nodes.len()];
    for &node in &d.sources {
        listed[node as usize] += 1;
    }
    let by_operation = d.targets.iter().map(|&node| listed[node as usize]).sum();
    [by_node, by_operation]
}

fn indices(list: &[u32]) -> VecArray<usize> {
    VecArray(list.iter().map(|&value| value as usize).collect())
}

fn function(map: &Map) -> Option<FiniteFunction<VecKind>> {
    FiniteFunction::new(indices(&map.entries), map.target as usize)
}

fn boundary(list: &[u32], nodes: usize) -> Option<FiniteFunction<VecKind>> {
    FiniteFunction::new(indices(list), nodes)
}

fn incidence(lengths: &[u32], values: &[u32], nodes: usize) -> Option<Table> {
    let values = FiniteFunction::new(indices(values), nodes)?;
    IndexedCoproduct::from_semifinite(SemifiniteFunction(indices(lengths)), values)
}

/// The drawing as the library's hypergraph, through its checking constructors.
fn graph_with<A: Clone>(d: &Drawing, labels: Vec<A>) -> Option<Graph<A>> {
    let n = d.nodes.len();
    let s = incidence(&d.source_lengths, &d.sources, n)?;
    let t = incidence(&d.target_lengths, &d.targets, n)?;
    let w = SemifiniteFunction(VecArray(d.nodes.clone()));
    Hypergraph::new(s, t, w, SemifiniteFunction(VecArray(labels))).ok()
}

fn graph(d: &Drawing) -> Option<Graph<u32>> {
    graph_with(d, d.operations.clone())
}

fn built(d: &Drawing) -> Graph<u32> {
    graph(d).expect("the library refuses an accepted drawing")
}

fn maps(case: &Case) -> (FiniteFunction<VecKind>, FiniteFunction<VecKind>) {
    let known = |map| function(map).expect("the library refuses an accepted map");
    (known(&case.w), known(&case.x))
}

/// The layer calls take an open hypergraph and do not look at its boundary.
fn closed(h: Graph<u32>) -> Open<u32> {
    let none = || boundary(&[], h.w.len()).expect("an empty list");
    OpenHypergraph { s: none(), t: none(), h }
}

fn walked(adjacency: Table) -> String {
    let (orders, marks) = kahn(&adjacency);
    format!("{} {}", list(&orders.0), list(&marks.0))
}

fn layer_of_each(d: &Drawing) -> String {
    let (orders, marks) = layer(&closed(built(d)));
    format!("{} {}", list(&orders.table.0), list(&marks.0))
}

fn layers(d: &Drawing) -> String {
    let (layers, marks) = layered_operations(&closed(built(d)));
    let mut offsets = vec![0];
    let mut operations = Vec::new();
    for layer in layers {
        operations.extend(layer.0);
        offsets.push(operations.len());
    }
    format!("{} {} {}", list(&operations), list(&offsets), list(&marks.0))
}

/// Is lent no drawing, and does not look at one.
fn monomorphism(case: &Case) -> String {
    let (w, x) = maps(case);
    let (source, target) = (Graph::<u32>::empty(), Graph::empty());
    yes_or_no(HypergraphArrow { source, target, w, x }.is_monomorphism())
}

/// Through a struct literal, since `HypergraphArrow::new` refuses where convexity says no.
fn convex(case: &Case) -> String {
    let (w, x) = maps(case);
    let (source, target) = (built(&case.part), built(&case.drawing));
    yes_or_no(HypergraphArrow { source, target, w, x }.is_convex_subgraph())
}

fn validate(case: &Case) -> String {
    use InvalidHypergraphArrow::*;
    let (w, x) = maps(case);
    match HypergraphArrow::new(built(&case.part), built(&case.drawing), w, x) {
        Ok(_) => "ok".to_string(),
        Err(fault) => refused(match fault {
            TypeMismatchW => 5,
            TypeMismatchX => 6,
            NotNaturalW => 7,
            NotNaturalX => 8,
            NotNaturalS => 9,
            NotNaturalT => 10,
        }),
    }
}

fn evaluate(case: &Case) -> String {
    let d = &case.drawing;
    let labels = d.operations.iter().zip(&d.target_lengths);
    let labels = labels.map(|(&label, &outputs)| CountedLabel { label, outputs: outputs as usize });
    let h = graph_with(d, labels.collect()).expect("the library refuses an accepted drawing");
    let known = |list| boundary(list, d.nodes.len()).expect("the library refuses a boundary");
    let Ok(f) = OpenHypergraph::new(known(&case.inputs), known(&case.outputs), h) else {
        panic!("the library refuses an accepted boundary")
    };
    let wrong = Cell::new(false);
    let result = eval(&f, VecArray(case.values.clone()), |labels, inputs| {
        let (mut counts, mut values) = (Vec::new(), Vec::new());
        for (operation, inputs) in labels.0.iter().zip(inputs.iter()) {
            let outputs = operation_table::apply(operation.label, inputs, operation.outputs);
            wrong.set(wrong.get() || outputs.is_none());
            counts.push(operation.outputs);
            values.extend(outputs.unwrap_or_else(|| vec![0; operation.outputs]));
        }
        let counts = SemifiniteFunction(VecArray(counts));
        IndexedCoproduct::from_semifinite(counts, SemifiniteFunction(VecArray(values))).unwrap()
    });
    match result {
        None => refused(13),
        Some(_) if wrong.get() => refused(14),
        Some(values) => list(&values.0),
    }
}
