//! Glue: stands in for a file that is not published. Only `coequalizer` calls it.
pub fn connected_components(_: &[usize], _: &[usize], _: usize) -> (Vec<usize>, usize) {
    panic!("connected_components is not part of the oracle")
}
