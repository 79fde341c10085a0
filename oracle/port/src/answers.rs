//! Every answer of the port to one case.
use crate::case::{self, Case};
use crate::lent::{Answer, Answered, Call, Noise};
use crate::offsets;
use tiwelzam::{Boundary, Drawing, Map, Maps, Refusal, Table, Workspace};

/// As in the oracle: what it does not answer is not printed here either, though the calls are made.
const MOST_ENTRIES: usize = 1 << 20;

/// Everything of a case as the crate takes it.
struct Lists<'a> {
    case: &'a Case,
    drawing: Drawing<'a>,
    part: Drawing<'a>,
    maps: Maps<'a>,
    boundary: Boundary<'a>,
    /// How many entries the node and the operation adjacency have; none where there is no drawing.
    entries: [usize; 2],
}

/// The name of each call with its answer, in the order of README.md without `node_kahn`, which is no call here;
/// `operation_kahn` is what `layer` says, but is never refused with 11.
pub fn answers(case: &Case) -> Vec<(&'static str, String)> {
    let l = lists_of(case);
    let [nodes, operations] = l.entries;
    let mut lines = Vec::new();
    let mut say = |name, line| lines.push((name, line));
    say("drawing", plain(l.drawing.check()));
    say("maps", plain(l.maps.check()));
    say("boundary", plain(l.drawing.check_boundary(l.boundary)));
    say("converse_sources", line(l.source_converse(), 0));
    say("converse_targets", line(l.target_converse(), 0));
    say("node_adjacency", line(l.node_adjacency(), nodes));
    say("operation_adjacency", line(l.operation_adjacency(), operations));
    say("operation_kahn", line(l.kahn(), operations));
    say("is_acyclic", line(l.is_acyclic(), nodes));
    say("layer", line(l.layer(), operations));
    say("layered_operations", line(l.layered_operations(), operations));
    say("validate", plain(l.maps.validate(&l.part, &l.drawing)));
    say("is_monomorphism", line(l.is_monomorphism(), 0));
    say("is_convex_subgraph", line(l.is_convex_subgraph(), nodes));
    say("eval", line(l.eval(), operations));
    lines
}

// ---- The calls in lent memory --------------------------------------------------------------------

type Asked = Result<Answered, String>;

impl Lists<'_> {
    fn source_converse(&self) -> Asked {
        self.table(
            [self.drawing.nodes.len(), self.drawing.sources.len()],
            &|lengths, values, ws| self.drawing.source_converse_into(lengths, values, ws),
            &|ws| self.drawing.source_converse(ws),
        )
    }

    fn target_converse(&self) -> Asked {
        self.table(
            [self.drawing.nodes.len(), self.drawing.targets.len()],
            &|lengths, values, ws| self.drawing.target_converse_into(lengths, values, ws),
            &|ws| self.drawing.target_converse(ws),
        )
    }

    fn node_adjacency(&self) -> Asked {
        self.sized(self.drawing.node_adjacency_size(), self.entries[0])?;
        self.table(
            [self.drawing.nodes.len(), self.entries[0]],
            &|lengths, values, ws| self.drawing.node_adjacency_into(lengths, values, ws),
            &|ws| self.drawing.node_adjacency(ws),
        )
    }

    fn operation_adjacency(&self) -> Asked {
        self.sized(self.drawing.operation_adjacency_size(), self.entries[1])?;
        self.table(
            [self.drawing.operations.len(), self.entries[1]],
            &|lengths, values, ws| self.drawing.operation_adjacency_into(lengths, values, ws),
            &|ws| self.drawing.operation_adjacency(ws),
        )
    }

    /// A size must be the count of entries, and refused exactly where the drawing is.
    fn sized(&self, size: Result<usize, Refusal>, entries: usize) -> Result<(), String> {
        match size == self.drawing.check().map(|()| entries) {
            true => Ok(()),
            false => Err(format!("its size is {size:?}")),
        }
    }

    fn table(
        &self,
        outputs: [usize; 2],
        lent: &dyn Fn(&mut [u32], &mut [u32], &mut [u32]) -> Result<(), Refusal>,
        made: &dyn Fn(&mut Workspace) -> Result<Table, Refusal>,
    ) -> Asked {
        let call = Call {
            outputs: outputs.to_vec(),
            workspace: self.drawing.workspace_need(),
            lent: &|rooms, ws| {
                let [lengths, values] = rooms else { unreachable!() };
                lent(lengths, values, ws).map(|()| None)
            },
            made: &|| made(&mut Workspace::new()).map(|table| lists([table.lengths, table.values])),
        };
        call.answer(self.case)
    }

    fn is_acyclic(&self) -> Asked {
        let call = Call {
            outputs: vec![],
            workspace: self.drawing.workspace_need(),
            lent: &|_, ws| self.drawing.is_acyclic_in(ws).map(Some),
            made: &|| self.drawing.is_acyclic(&mut Workspace::new()).map(verdict),
        };
        call.answer(self.case)
    }

    fn kahn(&self) -> Asked {
        Ok(self.drawing.layer(&mut Workspace::new()).map(|found| lists([found.orders, found.marks])))
    }

    fn layer(&self) -> Asked {
        let m = self.drawing.operations.len();
        let call = Call {
            outputs: vec![m, m],
            workspace: self.drawing.workspace_need(),
            lent: &|rooms, ws| {
                let [orders, marks] = rooms else { unreachable!() };
                self.drawing.layer_into(orders, marks, ws).map(|()| None)
            },
            made: &|| {
                let made = self.drawing.layer(&mut Workspace::new());
                made.map(|layering| lists([layering.orders, layering.marks]))
            },
        };
        call.answer(self.case)
    }

    fn layered_operations(&self) -> Asked {
        let m = self.drawing.operations.len();
        let call = Call {
            outputs: vec![m, m + 1, m],
            workspace: self.drawing.workspace_need(),
            lent: &|rooms, ws| {
                let [operations, offsets, marks] = rooms else { unreachable!() };
                self.drawing.layered_operations_into(operations, offsets, marks, ws).map(|()| None)
            },
            made: &|| {
                let made = self.drawing.layered_operations(&mut Workspace::new());
                made.map(|layered| lists([layered.operations, layered.offsets, layered.marks]))
            },
        };
        let answered = call.answer(self.case)?;
        if let Ok(answer) = &answered {
            let mut noise = Noise::of(&self.case.name);
            if let Some(fault) = offsets::fault(&answer.lists[0], &answer.lists[1], &mut noise) {
                return Err(fault);
            }
        }
        Ok(answered)
    }

    fn is_monomorphism(&self) -> Asked {
        let call = Call {
            outputs: vec![],
            // A declared target over the limit is refused in any room.
            workspace: self.maps.workspace_need().min(1 << 14),
            lent: &|_, ws| self.maps.is_monomorphism_in(ws).map(Some),
            made: &|| self.maps.is_monomorphism(&mut Workspace::new()).map(verdict),
        };
        call.answer(self.case)
    }

    fn is_convex_subgraph(&self) -> Asked {
        let (part, drawing) = (&self.part, &self.drawing);
        let call = Call {
            outputs: vec![],
            workspace: drawing.workspace_need(),
            lent: &|_, ws| self.maps.is_convex_subgraph_in(part, drawing, ws).map(Some),
            made: &|| self.maps.is_convex_subgraph(part, drawing, &mut Workspace::new()).map(verdict),
        };
        call.answer(self.case)
    }

    fn eval(&self) -> Asked {
        let values = &self.case.values;
        let call = Call {
            outputs: vec![self.boundary.outputs.len()],
            workspace: self.drawing.workspace_need(),
            lent: &|rooms, ws| {
                let [out] = rooms else { unreachable!() };
                self.drawing.eval_into(self.boundary, values, out, ws).map(|()| None)
            },
            made: &|| {
                let made = self.drawing.eval(self.boundary, values, &mut Workspace::new());
                made.map(|values| lists([values]))
            },
        };
        call.answer(self.case)
    }
}

fn lists<const COUNT: usize>(lists: [Vec<u32>; COUNT]) -> Answer {
    Answer { verdict: None, lists: lists.to_vec() }
}

fn verdict(answer: bool) -> Answer {
    Answer { verdict: Some(answer), lists: vec![] }
}

// ---- Lines -----------------------------------------------------------------------------------------

fn plain(answer: Result<(), Refusal>) -> String {
    answer.map_or_else(refused, |()| "ok".to_string())
}

fn line(asked: Asked, entries: usize) -> String {
    match asked {
        Err(fault) => format!("but {fault}"),
        Ok(Err(refusal)) if refusal.number() < 13 => refused(refusal),
        Ok(_) if entries > MOST_ENTRIES => "too large".to_string(), // 13 and 14 are found behind the adjacency
        Ok(Err(refusal)) => refused(refusal),
        Ok(Ok(Answer { verdict: Some(true), .. })) => "yes".to_string(),
        Ok(Ok(Answer { verdict: Some(false), .. })) => "no".to_string(),
        Ok(Ok(Answer { lists, .. })) => {
            lists.iter().map(|list| list_text(list)).collect::<Vec<_>>().join(" ")
        }
    }
}

fn refused(refusal: Refusal) -> String {
    format!("refused {}", refusal.number())
}

fn list_text(list: &[u32]) -> String {
    let words: Vec<String> = list.iter().map(u32::to_string).collect();
    format!("[{}]", words.join(" "))
}

// ---- A case as the crate takes it --------------------------------------------------------------------

fn lists_of(case: &Case) -> Lists<'_> {
    let drawing = borrowed(&case.drawing);
    Lists {
        case,
        drawing,
        part: borrowed(&case.part),
        maps: Maps { w: borrowed_map(&case.w), x: borrowed_map(&case.x) },
        boundary: Boundary { inputs: &case.inputs, outputs: &case.outputs },
        entries: if drawing.check().is_ok() { adjacency_entries(&case.drawing) } else { [0, 0] },
    }
}

fn borrowed(d: &case::Drawing) -> Drawing<'_> {
    Drawing {
        nodes: &d.nodes,
        operations: &d.operations,
        source_lengths: &d.source_lengths,
        sources: &d.sources,
        target_lengths: &d.target_lengths,
        targets: &d.targets,
    }
}

fn borrowed_map(map: &case::Map) -> Map<'_> {
    Map { entries: &map.entries, target: map.target }
}

/// Counted from the lists of an accepted drawing.
fn adjacency_entries(d: &case::Drawing) -> [usize; 2] {
    let lengths = d.source_lengths.iter().zip(&d.target_lengths);
    let by_node = lengths.map(|(&s, &t)| s as usize * t as usize).sum();
    let mut listed = vec![0; d.nodes.len()];
    for &node in &d.sources {
        listed[node as usize] += 1;
    }
    [by_node, d.targets.iter().map(|&node| listed[node as usize]).sum()]
}
