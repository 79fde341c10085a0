//! 01's worked examples, and what is left in lent memory.
use tiwelzam::{layer_at, offsets_sound, Boundary, Drawing, LayeredOperations, Layering, Layers};
use tiwelzam::{Map, Maps, Refusal, Table, Workspace};

type Tested = Result<(), Refusal>;

/// Operations 0 to 1, 1 to 2, 0 to 2.
const D: Drawing = Drawing {
    nodes: &[0; 3],
    operations: &[0; 3],
    source_lengths: &[1; 3],
    sources: &[0, 1, 0],
    target_lengths: &[1; 3],
    targets: &[1, 2, 2],
};

/// One operation 0 to 0.
const LOOP: Drawing = Drawing {
    nodes: &[0],
    operations: &[0],
    source_lengths: &[1],
    sources: &[0],
    target_lengths: &[1],
    targets: &[0],
};

/// Operations 0 to 1, 1 to 0, 1 to 2, none to 3.
const TURNING: Drawing = Drawing {
    nodes: &[0; 4],
    operations: &[0; 4],
    source_lengths: &[1, 1, 1, 0],
    sources: &[0, 1, 1],
    target_lengths: &[1; 4],
    targets: &[1, 0, 2, 3],
};

/// None to 0, and (0, 0) to 1.
const TWICE: Drawing = Drawing {
    nodes: &[0; 2],
    operations: &[0; 2],
    source_lengths: &[0, 2],
    sources: &[0, 0],
    target_lengths: &[1; 2],
    targets: &[0, 1],
};

/// (1, 1) to (2, 0), over three nodes.
const PAIRS: Drawing = Drawing {
    nodes: &[0; 3],
    operations: &[0],
    source_lengths: &[2],
    sources: &[1, 1],
    target_lengths: &[2],
    targets: &[2, 0],
};

/// One operation with no lists, and no node.
const ALONE: Drawing =
    Drawing { operations: &[0], source_lengths: &[0], target_lengths: &[0], ..Drawing::EMPTY };

fn ws() -> Workspace {
    Workspace::new()
}

fn table(lengths: &[u32], values: &[u32]) -> Table {
    Table { lengths: lengths.to_vec(), values: values.to_vec() }
}

#[test]
fn every_refusal_has_its_number() {
    for number in 1..=15 {
        assert_eq!(Refusal::from_number(number).map(Refusal::number), Some(number));
    }
    assert_eq!(Refusal::from_number(16), None);
}

#[test]
fn drawings_are_checked() {
    for drawing in [Drawing::EMPTY, ALONE, D, LOOP, TURNING, TWICE, PAIRS] {
        assert_eq!(drawing.check(), Ok(()));
    }
    assert_eq!(Drawing { nodes: &[0; 4096], ..Drawing::EMPTY }.check(), Ok(()));
    assert_eq!(Drawing { nodes: &[0; 4097], ..Drawing::EMPTY }.check(), Err(Refusal::OverLimit));
    assert_eq!(Drawing { operations: &[0; 4097], ..Drawing::EMPTY }.check(), Err(Refusal::OverLimit));
    assert_eq!(Drawing { sources: &[0; 16385], ..Drawing::EMPTY }.check(), Err(Refusal::OverLimit));
    assert_eq!(Drawing { targets: &[0; 16385], ..Drawing::EMPTY }.check(), Err(Refusal::OverLimit));
    // A length list has no limit of its own.
    assert_eq!(Drawing { source_lengths: &[0; 5000], ..D }.check(), Err(Refusal::BadLengths));
    // 2 is looked for in both lists before 3.
    assert_eq!(Drawing { sources: &[0, 9, 0], target_lengths: &[1], ..D }.check(), Err(Refusal::BadLengths));
    // The sum does not wrap around.
    let wrapping = Drawing { source_lengths: &[1 << 31, 1 << 31, 3], ..D };
    assert_eq!(wrapping.check(), Err(Refusal::BadLengths));
    assert_eq!(Drawing { targets: &[1, 3, 2], ..D }.check(), Err(Refusal::BadValue));
}

#[test]
fn maps_are_checked() {
    let maps = |entries, target| Maps { w: Map { entries, target }, ..Maps::default() };
    assert_eq!(Maps::default().check(), Ok(()));
    assert_eq!(maps(&[0, 4095], 4096).check(), Ok(()));
    assert_eq!(maps(&[0], 4097).check(), Err(Refusal::OverLimit));
    assert_eq!(maps(&[0; 4097], 1).check(), Err(Refusal::OverLimit));
    assert_eq!(maps(&[0], 0).check(), Err(Refusal::BadEntry));
    let x = Maps { x: Map { entries: &[3], target: 3 }, ..Maps::default() };
    assert_eq!(x.check(), Err(Refusal::BadEntry));
}

#[test]
fn boundaries_are_checked() {
    assert_eq!(D.check_boundary(Boundary { inputs: &[0, 0], outputs: &[2] }), Ok(()));
    assert_eq!(D.check_boundary(Boundary { inputs: &[], outputs: &[3] }), Err(Refusal::BadBoundary));
    assert_eq!(D.check_boundary(Boundary { inputs: &[0; 4097], outputs: &[] }), Err(Refusal::OverLimit));
    let bad = Drawing { targets: &[], ..D };
    assert_eq!(bad.check_boundary(Boundary { inputs: &[9], outputs: &[] }), Err(Refusal::BadLengths));
}

#[test]
fn converses() -> Tested {
    assert_eq!(D.source_converse(&mut ws())?, table(&[2, 1, 0], &[0, 2, 1]));
    assert_eq!(D.target_converse(&mut ws())?, table(&[0, 1, 2], &[0, 1, 2]));
    assert_eq!(TWICE.source_converse(&mut ws())?, table(&[2, 0], &[1, 1]));
    let rows = D.source_converse(&mut ws())?;
    assert_eq!(rows.rows().collect::<Vec<_>>(), [&[0, 2][..], &[1], &[]]);
    let large = Drawing { nodes: &[0; 4097], ..D };
    assert_eq!(large.source_converse(&mut ws()), Err(Refusal::OverLimit));
    Ok(())
}

#[test]
fn adjacencies() -> Tested {
    assert_eq!(PAIRS.node_adjacency(&mut ws())?, table(&[0, 4, 0], &[2, 0, 2, 0]));
    assert_eq!(PAIRS.node_adjacency_size(), Ok(4));
    assert_eq!(TWICE.operation_adjacency(&mut ws())?, table(&[2, 0], &[1, 1]));
    assert_eq!(TWICE.operation_adjacency_size(), Ok(2));
    let bad = Drawing { nodes: &[0], ..D };
    assert_eq!(bad.node_adjacency_size(), Err(Refusal::BadValue));
    assert_eq!(bad.operation_adjacency(&mut ws()), Err(Refusal::BadValue));
    Ok(())
}

#[test]
fn the_largest_adjacency_is_counted() {
    let hub = Drawing {
        nodes: &[0],
        operations: &[0],
        source_lengths: &[16384],
        sources: &[0; 16384],
        target_lengths: &[16384],
        targets: &[0; 16384],
    };
    assert_eq!(hub.node_adjacency_size(), Ok(1 << 28));
    assert_eq!(hub.operation_adjacency_size(), Ok(1 << 28));
}

#[test]
fn acyclicity() {
    for (drawing, acyclic) in
        [(Drawing::EMPTY, true), (ALONE, true), (D, true), (LOOP, false), (TURNING, false)]
    {
        assert_eq!(drawing.is_acyclic(&mut ws()), Ok(acyclic));
    }
    let mut workspace = [7; 65];
    assert_eq!(
        Drawing { nodes: &[0; 7], ..Drawing::EMPTY }.is_acyclic_in(&mut workspace[..63]),
        Err(Refusal::ShortRoom)
    );
    assert_eq!(workspace, [7; 65]);
    assert_eq!(Drawing { nodes: &[0; 7], ..Drawing::EMPTY }.is_acyclic_in(&mut workspace), Ok(true));
    assert_eq!((&workspace[..64], workspace[64]), (&[0; 64][..], 7));
}

#[test]
fn layers() -> Tested {
    let layering =
        |orders: &[u32], marks: &[u32]| Layering { orders: orders.to_vec(), marks: marks.to_vec() };
    assert_eq!(TURNING.layer(&mut ws())?, layering(&[0; 4], &[1, 1, 1, 0]));
    assert_eq!(TWICE.layer(&mut ws())?, layering(&[0, 1], &[0, 0]));
    assert_eq!(D.layer(&mut ws())?, layering(&[0, 1, 0], &[0; 3]));
    Ok(())
}

#[test]
fn layered() -> Tested {
    let layered = |operations: &[u32], offsets: &[u32], marks: &[u32]| LayeredOperations {
        operations: operations.to_vec(),
        offsets: offsets.to_vec(),
        marks: marks.to_vec(),
    };
    assert_eq!(Drawing::EMPTY.layered_operations(&mut ws())?, layered(&[], &[0], &[]));
    assert_eq!(ALONE.layered_operations(&mut ws())?, layered(&[0], &[0, 1], &[0]));
    let turning = TURNING.layered_operations(&mut ws())?;
    assert_eq!(turning, layered(&[0, 1, 2, 3], &[0, 4, 4, 4, 4], &[1, 1, 1, 0]));
    assert_eq!(turning.layers().collect::<Vec<_>>(), [&[0, 1, 2, 3][..], &[], &[], &[]]);
    assert_eq!(turning.layer_at(0), [0, 1, 2, 3]);
    assert_eq!(turning.layer_at(usize::MAX), []);
    Ok(())
}

#[test]
fn offsets() {
    assert!(offsets_sound(&[], &[0]));
    for offsets in [&[][..], &[1], &[0, 0], &[u32::MAX]] {
        assert!(!offsets_sound(&[], offsets));
        assert_eq!(Layers::new(&[], offsets).count(), 0);
    }
    let operations = [4, 2, 9];
    assert!(offsets_sound(&operations, &[0, 0, 2, 3]));
    assert_eq!(layer_at(&operations, &[0, 0, 2, 3], 1), [4, 2]);
    assert_eq!(layer_at(&operations, &[0, 0, 2, 3], 3), []);
    for offsets in [&[0, 0, 2][..], &[1, 1, 2, 3], &[0, 2, 1, 3], &[0, 0, 2, 2], &[0, 0, 2, 4], &[0, 4, 4, 3]]
    {
        assert!(!offsets_sound(&operations, offsets));
        assert_eq!(layer_at(&operations, offsets, 1), []);
    }
}

#[test]
fn validation() {
    let whole = Maps::into_drawing(&[0, 1, 2], &[0, 1, 2], &D);
    assert_eq!(whole.validate(&D, &D), Ok(()));
    let refused = |maps: Maps, source: Drawing| maps.validate(&source, &D).unwrap_err().number();
    assert_eq!(refused(Maps { w: Map { target: 4, ..whole.w }, ..whole }, D), 5);
    assert_eq!(refused(Maps::into_drawing(&[0, 1], &[0, 1, 2], &D), D), 5);
    assert_eq!(refused(Maps::into_drawing(&[0, 1, 2], &[0, 1], &D), D), 6);
    assert_eq!(refused(whole, Drawing { nodes: &[0, 1, 0], ..D }), 7);
    assert_eq!(refused(whole, Drawing { operations: &[0, 1, 0], ..D }), 8);
    assert_eq!(refused(whole, Drawing { sources: &[0, 1, 1], ..D }), 9);
    assert_eq!(refused(whole, Drawing { targets: &[1, 2, 0], ..D }), 10);
    assert_eq!(refused(Maps { w: Map { target: 4097, ..whole.w }, ..whole }, D), 1);
    assert_eq!(refused(whole, Drawing { targets: &[], ..D }), 2);
    assert_eq!(refused(whole, Drawing { targets: &[9, 9, 9], ..D }), 3);
    assert_eq!(refused(Maps::into_drawing(&[0, 1, 3], &[0, 1, 2], &D), D), 4);
}

#[test]
fn monomorphisms() {
    assert_eq!(Maps::default().is_monomorphism_in(&mut []), Ok(true));
    let maps = |w, x| Maps { w: Map { entries: w, target: 3 }, x: Map { entries: x, target: 4 } };
    assert_eq!(maps(&[0, 2], &[3, 0]).is_monomorphism(&mut ws()), Ok(true));
    assert_eq!(maps(&[0, 2, 0], &[3, 0]).is_monomorphism(&mut ws()), Ok(false));
    assert_eq!(maps(&[0, 2], &[3, 3]).is_monomorphism(&mut ws()), Ok(false));
    assert_eq!(maps(&[0, 2], &[4]).is_monomorphism(&mut ws()), Err(Refusal::BadEntry));
    assert_eq!(maps(&[0, 2], &[3]).is_monomorphism_in(&mut [0; 3]), Err(Refusal::ShortRoom));
    let mut workspace = [7; 5];
    assert_eq!(maps(&[2, 2], &[3]).is_monomorphism_in(&mut workspace), Ok(false));
    assert_eq!(workspace, [0, 0, 0, 0, 7]);
}

#[test]
fn convexity() {
    let convex = |w: &[u32], x: &[u32], source: Drawing, target: Drawing| {
        Maps::into_drawing(w, x, &target).is_convex_subgraph(&source, &target, &mut ws())
    };
    let first = Drawing { targets: &[1], nodes: &[0, 0], ..LOOP };
    let two = Drawing { nodes: &[0; 3], sources: &[0, 1], targets: &[1, 2], ..TWICE };
    let two = Drawing { source_lengths: &[1, 1], ..two };
    let nodes = Drawing { nodes: &[0, 0], ..Drawing::EMPTY };
    assert_eq!(convex(&[0, 1], &[0], first, D), Ok(true));
    assert_eq!(convex(&[0, 1, 2], &[0, 1], two, D), Ok(false));
    assert_eq!(convex(&[0, 2], &[], nodes, D), Ok(false));
    assert_eq!(convex(&[], &[], Drawing::EMPTY, D), Ok(true));
    let node = Drawing { nodes: &[0], ..Drawing::EMPTY };
    assert_eq!(convex(&[0], &[], node, LOOP), Ok(false));
    assert_eq!(convex(&[0], &[0], LOOP, LOOP), Ok(true));
    // Not natural, not injective: a plain no.
    assert_eq!(convex(&[0], &[], nodes, D), Ok(false));
    assert_eq!(convex(&[0, 0], &[], nodes, D), Ok(false));
    assert_eq!(convex(&[0, 3], &[], nodes, D), Err(Refusal::BadEntry));
    let mut workspace = vec![7; D.workspace_need() + 1];
    assert_eq!(Maps::default().is_convex_subgraph_in(&nodes, &D, &mut workspace), Ok(false));
    assert!(workspace[..D.workspace_need()].iter().all(|&word| word == 0));
    assert_eq!(workspace.last(), Some(&7));
}

#[test]
fn evaluation() -> Tested {
    let node = Drawing { nodes: &[0], ..Drawing::EMPTY };
    assert_eq!(node.eval(Boundary { inputs: &[0, 0], outputs: &[0] }, &[1, 2], &mut ws())?, [2]);

    let distances = Drawing {
        nodes: &[0; 6],
        operations: &[2, 2, 7],
        source_lengths: &[2, 2, 2],
        sources: &[0, 1, 0, 2, 3, 4],
        target_lengths: &[1, 1, 1],
        targets: &[3, 4, 5],
    };
    let boundary = Boundary { inputs: &[0, 1, 2], outputs: &[5] };
    assert_eq!(distances.eval(boundary, &[100, 90, 130], &mut ws())?, [0]);

    let constant = |label| {
        let operations = [label];
        let drawing = Drawing {
            nodes: &[0],
            operations: &operations,
            source_lengths: &[0],
            sources: &[],
            target_lengths: &[1],
            targets: &[0],
        };
        drawing.eval(Boundary { inputs: &[], outputs: &[0] }, &[], &mut ws())
    };
    assert_eq!(constant(511)?, [255]);
    assert_eq!(constant(512), Err(Refusal::WrongOperation));

    let one = |label| {
        let operations = [label];
        let drawing = Drawing { operations: &operations, nodes: &[0, 0], targets: &[1], ..LOOP };
        drawing.eval(Boundary { inputs: &[0], outputs: &[1] }, &[u32::MAX], &mut ws())
    };
    assert_eq!(one(16)?, [u32::MAX]);
    assert_eq!(one(31)?, [u32::MAX >> 15]);
    assert_eq!(one(15), Err(Refusal::WrongOperation));

    let mut workspace = vec![7; LOOP.workspace_need() + 1];
    let mut out = [7; 2];
    let boundary = Boundary { inputs: &[], outputs: &[0] };
    assert_eq!(LOOP.eval_into(boundary, &[], &mut out, &mut workspace), Err(Refusal::Unplaced));
    assert_eq!(out, [7; 2]);
    assert!(workspace[..LOOP.workspace_need()].iter().all(|&word| word == 0));
    assert_eq!(workspace.last(), Some(&7));
    let outside = Boundary { inputs: &[1], outputs: &[] };
    assert_eq!(LOOP.eval(outside, &[], &mut ws()), Err(Refusal::BadBoundary));
    assert_eq!(LOOP.eval(boundary, &[0; 4097], &mut ws()), Err(Refusal::OverLimit));
    Ok(())
}
