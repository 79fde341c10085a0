//! The drawings that are measured: each for a size n, with a part, a boundary and input values.
use open_hypergraphs::oracle::published::Lists;

pub struct Input {
    pub target: Lists,
    pub source: Lists,
    pub w: Vec<u32>,
    pub x: Vec<u32>,
    pub inputs: Vec<u32>,
    pub outputs: Vec<u32>,
    pub values: Vec<u32>,
    /// Whether the labels fit the operation table.
    pub evaluates: bool,
}

/// Label, sources, targets.
type Operation = (u32, Vec<u32>, Vec<u32>);

pub type Family = (&'static str, &'static str, fn(u32) -> Input);

pub const FAMILIES: [Family; 6] = [
    ("chain", "n nodes, an operation from each to the next; the part is the first half", chain),
    ("layered DAG", "n nodes in rows of 32; each behind the first row is written by one operation that reads one to \
      four nodes of the row before; the part is the upper half", dag),
    ("star", "n - 1 operations read one node and write one of their own; the part is the first half", star),
    ("hub of operations", "n nodes; n/2 operations write one node seven times each, n/2 read it seven times each; \
      the part is the writers", hub_of_operations),
    ("hub of nodes", "n nodes; one operation lists 4n sources and 4n targets; the part is a node", hub_of_nodes),
    ("cycle", "n nodes, an operation from each to the next and from the last to the first; the part is the first half", cycle),
];

fn lists(n: u32, operations: &[Operation]) -> Lists {
    let each = |pick: fn(&Operation) -> &Vec<u32>| -> (Vec<u32>, Vec<u32>) {
        let lengths = operations.iter().map(|operation| pick(operation).len() as u32).collect();
        (lengths, operations.iter().flat_map(|operation| pick(operation).clone()).collect())
    };
    let ((sl, sv), (tl, tv)) = (each(|operation| &operation.1), each(|operation| &operation.2));
    [vec![0; n as usize], operations.iter().map(|operation| operation.0).collect(), sl, sv, tl, tv]
}

/// The drawing, and the part with these nodes and operations.
fn input(n: u32, operations: Vec<Operation>, w: Vec<u32>, x: Vec<u32>) -> Input {
    let mut place = vec![0; n as usize];
    for (own, &node) in w.iter().enumerate() {
        place[node as usize] = own as u32;
    }
    let moved = |list: &[u32]| list.iter().map(|&node| place[node as usize]).collect();
    let chosen: Vec<Operation> = x
        .iter()
        .map(|&operation| &operations[operation as usize])
        .map(|(label, sources, targets)| (*label, moved(sources), moved(targets)))
        .collect();
    let (target, source) = (lists(n, &operations), lists(w.len() as u32, &chosen));
    Input { target, source, w, x, inputs: vec![], outputs: vec![], values: vec![], evaluates: true }
}

fn chain(n: u32) -> Input {
    let operations = (1..n).map(|node| (0, vec![node - 1], vec![node])).collect();
    let part = input(n, operations, (0..n / 2).collect(), (0..n / 2 - 1).collect());
    Input { inputs: vec![0], outputs: vec![n - 1], values: vec![5], ..part }
}

fn dag(n: u32) -> Input {
    const ROW: u32 = 32;
    let mut state = 1u64;
    let mut below = |bound: u32| {
        state = state.wrapping_mul(6364136223846793005).wrapping_add(1442695040888963407);
        ((state >> 33) % u64::from(bound)) as u32
    };
    let mut operations = Vec::new();
    for node in ROW..n {
        let start = (node / ROW - 1) * ROW;
        let sources: Vec<u32> = (0..=below(4)).map(|_| start + below(ROW)).collect();
        let label = [0, 1, 6, 3][sources.len() - 1];
        operations.push((label, sources, vec![node]));
    }
    let part = input(n, operations, (0..n / 2).collect(), (0..(n / 2).saturating_sub(ROW)).collect());
    let values = (0..ROW).map(|value| value * 1000 + 1).collect();
    Input { inputs: (0..ROW).collect(), outputs: (n - ROW..n).collect(), values, ..part }
}

fn star(n: u32) -> Input {
    let operations = (1..n).map(|node| (0, vec![0], vec![node])).collect();
    let part = input(n, operations, (0..n / 2).collect(), (0..n / 2 - 1).collect());
    Input { inputs: vec![0], outputs: (0..n).collect(), values: vec![5], ..part }
}

fn hub_of_operations(n: u32) -> Input {
    let writers = (0..n / 2).map(|_| (0, vec![1], vec![0; 7]));
    let readers = (0..n / 2).map(|reader| (3, vec![0; 7], vec![2 + reader]));
    let part = input(n.max(n / 2 + 2), writers.chain(readers).collect(), vec![0, 1], (0..n / 2).collect());
    Input { inputs: vec![1], outputs: (2..n / 2 + 2).collect(), values: vec![5], ..part }
}

fn hub_of_nodes(n: u32) -> Input {
    let operation = (0, vec![0; 4 * n as usize], vec![1; 4 * n as usize]);
    Input { evaluates: false, ..input(n, vec![operation], vec![0], vec![]) }
}

fn cycle(n: u32) -> Input {
    let operations = (0..n).map(|node| (0, vec![node], vec![(node + 1) % n])).collect();
    let part = input(n, operations, (0..n / 2).collect(), (0..n / 2 - 1).collect());
    Input { inputs: vec![0], outputs: vec![n - 1], values: vec![5], ..part }
}
