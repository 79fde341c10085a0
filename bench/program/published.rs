//! The published library's calls, on drawings that were built before the clock starts.
use crate::array::vec::{VecArray, VecKind};
use crate::finite_function::FiniteFunction;
use crate::indexed_coproduct::IndexedCoproduct;
use crate::semifinite::SemifiniteFunction;
use crate::strict::eval::eval;
use crate::strict::graph::{node_adjacency, operation_adjacency};
use crate::strict::hypergraph::{Hypergraph, HypergraphArrow};
use crate::strict::layer::{layer, layered_operations};
use crate::strict::open_hypergraph::OpenHypergraph;
use crate::strict::relation::converse;

type Table = IndexedCoproduct<VecKind, FiniteFunction<VecKind>>;
type Graph<A> = Hypergraph<VecKind, u32, A>;

/// The six lists of a drawing: node labels, operation labels, source lengths and values, target lengths and values.
pub type Lists = [Vec<u32>; 6];

/// An operation's label with its output count: the closure of `eval` is told nothing else.
#[derive(Clone)]
struct CountedLabel {
    label: u32,
    outputs: usize,
}

/// Everything that the library's calls take.
pub struct Built {
    open: OpenHypergraph<VecKind, u32, u32>,
    counted: OpenHypergraph<VecKind, u32, CountedLabel>,
    source: Graph<u32>,
    w: FiniteFunction<VecKind>,
    x: FiniteFunction<VecKind>,
    values: VecArray<u32>,
}

/// A call's result as the library gives it.
pub enum Answer {
    Table(Table),
    Yes(bool),
    Layer(FiniteFunction<VecKind>, VecArray<usize>),
    Layers(Vec<VecArray<usize>>, VecArray<usize>),
    Values(Option<VecArray<u32>>),
}

impl Answer {
    /// Whether these lists are the result. A yes is the list of 1, a no that of 0, and a refused evaluation no list.
    pub fn is(&self, lists: &[Vec<u32>]) -> bool {
        let same =
            |own: &[usize], list: &[u32]| own.iter().copied().eq(list.iter().map(|&word| word as usize));
        match (self, lists) {
            (Answer::Table(own), [lengths, values]) => {
                same(&own.sources.table.0, lengths) && same(&own.values.table.0, values)
            }
            (Answer::Yes(own), [verdict]) => verdict[..] == [u32::from(*own)],
            (Answer::Layer(orders, marks), [o, m]) => same(&orders.table.0, o) && same(&marks.0, m),
            (Answer::Layers(layers, marks), [operations, offsets, m]) => {
                let ends = layers.iter().scan(0, |end, layer| {
                    *end += layer.0.len();
                    Some(*end)
                });
                let own: Vec<usize> = layers.iter().flat_map(|layer| layer.0.iter().copied()).collect();
                let starts: Vec<usize> = std::iter::once(0).chain(ends).collect();
                same(&own, operations) && same(&starts, offsets) && same(&marks.0, m)
            }
            (Answer::Values(Some(own)), [values]) => own.0 == *values,
            (Answer::Values(None), []) => true,
            _ => false,
        }
    }
}

fn indices(list: &[u32]) -> VecArray<usize> {
    VecArray(list.iter().map(|&value| value as usize).collect())
}

fn function(list: &[u32], target: usize) -> FiniteFunction<VecKind> {
    FiniteFunction::new(indices(list), target).expect("entries below their target")
}

fn incidence(lengths: &[u32], values: &[u32], nodes: usize) -> Table {
    let lengths = SemifiniteFunction(indices(lengths));
    IndexedCoproduct::from_semifinite(lengths, function(values, nodes)).expect("lengths that fit")
}

fn graph<A: Clone>([w, _, sl, sv, tl, tv]: &Lists, labels: Vec<A>) -> Graph<A> {
    let (s, t) = (incidence(sl, sv, w.len()), incidence(tl, tv, w.len()));
    let (w, x) = (SemifiniteFunction(VecArray(w.clone())), SemifiniteFunction(VecArray(labels)));
    Hypergraph::new(s, t, w, x).ok().expect("an accepted drawing")
}

impl Built {
    pub fn new(
        target: &Lists,
        source: &Lists,
        maps: [&[u32]; 2],
        boundary: [&[u32]; 2],
        values: &[u32],
    ) -> Built {
        let (n, m) = (target[0].len(), target[1].len());
        let labels = target[1].iter().zip(&target[4]);
        let counted =
            labels.map(|(&label, &outputs)| CountedLabel { label, outputs: outputs as usize }).collect();
        let ends = || boundary.map(|list| function(list, n));
        let ([s, t], [s2, t2]) = (ends(), ends());
        Built {
            open: OpenHypergraph { s, t, h: graph(target, target[1].clone()) },
            counted: OpenHypergraph { s: s2, t: t2, h: graph(target, counted) },
            source: graph(source, source[1].clone()),
            w: function(maps[0], n),
            x: function(maps[1], m),
            values: VecArray(values.to_vec()),
        }
    }

    /// The arrow, made anew for each call, before the clock starts.
    pub fn arrow(&self) -> HypergraphArrow<VecKind, u32, u32> {
        let (source, target) = (self.source.clone(), self.open.h.clone());
        HypergraphArrow { source, target, w: self.w.clone(), x: self.x.clone() }
    }

    /// The lists of the drawing as the library's arrays, made anew for each building.
    pub fn arrays(&self) -> Arrays {
        let h = &self.open.h;
        let table = |table: &Table| [table.sources.table.clone(), table.values.table.clone()];
        Arrays { s: table(&h.s), t: table(&h.t), w: h.w.clone(), x: h.x.clone() }
    }

    pub fn source_converse(&self) -> Answer {
        Answer::Table(converse(&self.open.h.s))
    }

    pub fn target_converse(&self) -> Answer {
        Answer::Table(converse(&self.open.h.t))
    }

    pub fn node_adjacency(&self) -> Answer {
        Answer::Table(node_adjacency(&self.open.h))
    }

    pub fn operation_adjacency(&self) -> Answer {
        Answer::Table(operation_adjacency(&self.open.h))
    }

    pub fn is_acyclic(&self) -> Answer {
        Answer::Yes(self.open.h.is_acyclic())
    }

    pub fn layer(&self) -> Answer {
        let (orders, marks) = layer(&self.open);
        Answer::Layer(orders, marks)
    }

    pub fn layered_operations(&self) -> Answer {
        let (layers, marks) = layered_operations(&self.open);
        Answer::Layers(layers, marks)
    }

    pub fn eval(&self) -> Answer {
        Answer::Values(eval(&self.counted, self.values.clone(), |labels, inputs| {
            let (mut counts, mut values) = (Vec::new(), Vec::new());
            for (operation, inputs) in labels.0.iter().zip(inputs.iter()) {
                counts.push(operation.outputs);
                values.extend(std::iter::repeat(applied(operation.label, inputs)).take(operation.outputs));
            }
            let counts = SemifiniteFunction(VecArray(counts));
            IndexedCoproduct::from_semifinite(counts, SemifiniteFunction(VecArray(values))).unwrap()
        }))
    }
}

/// What a drawing is built from.
pub struct Arrays {
    s: [VecArray<usize>; 2],
    t: [VecArray<usize>; 2],
    w: SemifiniteFunction<VecKind, u32>,
    x: SemifiniteFunction<VecKind, u32>,
}

/// The library checks a drawing while it is built.
pub fn check_drawing(Arrays { s, t, w, x }: Arrays) -> Answer {
    let nodes = w.len();
    let table = |[lengths, values]: [VecArray<usize>; 2]| {
        let values = FiniteFunction::new(values, nodes)?;
        IndexedCoproduct::from_semifinite(SemifiniteFunction(lengths), values)
    };
    let built = table(s).zip(table(t)).map(|(s, t)| Hypergraph::new(s, t, w, x).is_ok());
    Answer::Yes(built == Some(true))
}

pub fn validate(arrow: HypergraphArrow<VecKind, u32, u32>) -> Answer {
    Answer::Yes(arrow.validate().is_ok())
}

pub fn is_monomorphism(arrow: HypergraphArrow<VecKind, u32, u32>) -> Answer {
    Answer::Yes(arrow.is_monomorphism())
}

pub fn is_convex_subgraph(arrow: HypergraphArrow<VecKind, u32, u32>) -> Answer {
    Answer::Yes(arrow.is_convex_subgraph())
}

/// The labels that the drawings here use.
fn applied(label: u32, inputs: &[u32]) -> u32 {
    match (label, inputs) {
        (0, [value]) => *value,
        (1, [a, b]) => a.wrapping_add(*b),
        (3, [..]) => *inputs.iter().min().expect("an input"),
        (6, [condition, yes, no]) => *if *condition != 0 { yes } else { no },
        _ => unreachable!("no drawing here has label {label}"),
    }
}
