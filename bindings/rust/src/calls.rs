//! The archive's functions, and the one place where they are called.
//!
//! Each is described by the kinds of what it is lent: `drawing` is six lists, `list` a pointer and a length,
//! `room` the same for what may be written, `number` a u32, `index` a usize, `word` one u32 that may be written.
//! bindings/c/tiwelzam.h has the same functions written out.
use crate::Refusal;

macro_rules! declare {
    ($($name:ident: $($kind:ident)*;)*) => { extern "C" { $(declared! { $name [] $($kind)* })* } };
}

macro_rules! declared {
    ($name:ident [$($done:tt)*]) => { pub fn $name($($done)*) -> u32; };
    ($name:ident [$($done:tt)*] drawing $($rest:ident)*) => {
        declared! { $name [$($done)*] list list list list list list $($rest)* }
    };
    ($name:ident [$($done:tt)*] list $($rest:ident)*) => {
        declared! { $name [$($done)* _: *const u32, _: usize,] $($rest)* }
    };
    ($name:ident [$($done:tt)*] room $($rest:ident)*) => {
        declared! { $name [$($done)* _: *mut u32, _: usize,] $($rest)* }
    };
    ($name:ident [$($done:tt)*] number $($rest:ident)*) => { declared! { $name [$($done)* _: u32,] $($rest)* } };
    ($name:ident [$($done:tt)*] index $($rest:ident)*) => { declared! { $name [$($done)* _: usize,] $($rest)* } };
    ($name:ident [$($done:tt)*] word $($rest:ident)*) => { declared! { $name [$($done)* _: *mut u32,] $($rest)* } };
}

declare! {
    tiwelzam_check_drawing: drawing;
    tiwelzam_check_maps: list number list number;
    tiwelzam_check_boundary: drawing list list;
    tiwelzam_source_converse: drawing room room room;
    tiwelzam_target_converse: drawing room room room;
    tiwelzam_node_adjacency: drawing room room room;
    tiwelzam_operation_adjacency: drawing room room room;
    tiwelzam_node_adjacency_size: drawing word;
    tiwelzam_operation_adjacency_size: drawing word;
    tiwelzam_is_acyclic: drawing room word;
    tiwelzam_layer: drawing room room room;
    tiwelzam_layered_operations: drawing room room room room;
    tiwelzam_offsets_sound: list list word;
    tiwelzam_layer_at: list list index word word;
    tiwelzam_validate: drawing drawing list number list number;
    tiwelzam_is_monomorphism: list number list number room word;
    tiwelzam_is_convex_subgraph: drawing drawing list number list number room word;
    tiwelzam_eval: drawing list list list room room;
}

/// Calls a function of the archive with what it is lent, in its order and by its kinds.
///
/// Sound: each pointer is that of a Rust slice with its length, or of one word; what may be written is borrowed
/// mutably, so nothing else that is lent overlaps it; and the calls need nothing more (they have no `requires`).
macro_rules! ask {
    ($name:ident($($lent:tt)*)) => { ask!($name [] $($lent)*,) };
    ($name:ident [$($done:tt)*] $(,)?) => { unsafe { $crate::calls::$name($($done)*) } };
    ($name:ident [$($done:tt)*] drawing $d:expr, $($rest:tt)*) => {
        ask!($name [$($done)*] list $d.nodes, list $d.operations, list $d.source_lengths, list $d.sources,
            list $d.target_lengths, list $d.targets, $($rest)*)
    };
    ($name:ident [$($done:tt)*] maps $f:expr, $($rest:tt)*) => {
        ask!($name [$($done)*] list $f.w.entries, number $f.w.target, list $f.x.entries, number $f.x.target, $($rest)*)
    };
    ($name:ident [$($done:tt)*] list $l:expr, $($rest:tt)*) => {
        ask!($name [$($done)* $l.as_ptr(), $l.len(),] $($rest)*)
    };
    ($name:ident [$($done:tt)*] room $r:expr, $($rest:tt)*) => {
        ask!($name [$($done)* $r.as_mut_ptr(), $r.len(),] $($rest)*)
    };
    ($name:ident [$($done:tt)*] word $w:expr, $($rest:tt)*) => { ask!($name [$($done)* &mut $w,] $($rest)*) };
    ($name:ident [$($done:tt)*] number $n:expr, $($rest:tt)*) => { ask!($name [$($done)* $n,] $($rest)*) };
    ($name:ident [$($done:tt)*] index $n:expr, $($rest:tt)*) => { ask!($name [$($done)* $n,] $($rest)*) };
}
pub(crate) use ask;

/// What a word holds that no call has written. No answer is this number.
pub const UNWRITTEN: u32 = u32::MAX;

/// A returned number as a result.
pub fn done(number: u32) -> Result<(), Refusal> {
    match Refusal::from_number(number) {
        Some(refusal) => Err(refusal),
        None if number == 0 => Ok(()),
        None => panic!("{number} is no number of a refusal"),
    }
}

/// A returned number, and the word that was written where nothing was refused.
pub fn told(number: u32, word: u32) -> Result<u32, Refusal> {
    let answer = done(number);
    debug_assert_eq!(
        answer.is_err(),
        word == UNWRITTEN,
        "a word is written exactly where nothing is refused"
    );
    answer.map(|()| word)
}

/// The same for a yes (1) or no (0).
pub fn verdict(number: u32, word: u32) -> Result<bool, Refusal> {
    let word = told(number, word)?;
    debug_assert!(word <= 1, "a yes or a no");
    Ok(word == 1)
}
