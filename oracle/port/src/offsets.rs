//! The lookup of a layer and the test of offsets, which the Rust does not have, against their definition.
use crate::lent::Noise;
use tiwelzam::{layer_at, offsets_sound, Layers};

/// What is wrong on the offsets that the port wrote, and on some that are damaged.
pub fn fault(operations: &[u32], offsets: &[u32], noise: &mut Noise) -> Option<String> {
    if !offsets_sound(operations, offsets) {
        return Some(format!("its offsets {offsets:?} are not sound"));
    }
    let mut tried = vec![offsets.to_vec()];
    for _ in 0..3 {
        tried.push(damaged(offsets, operations.len() as u32, noise));
    }
    tried.into_iter().find_map(|offsets| lookup_fault(operations, &offsets, noise))
}

fn lookup_fault(operations: &[u32], offsets: &[u32], noise: &mut Noise) -> Option<String> {
    let sound = sound(operations, offsets);
    if offsets_sound(operations, offsets) != sound {
        return Some(format!("offsets_sound({operations:?}, {offsets:?}) is not {sound}"));
    }
    let part = |layer: usize| match sound && layer < operations.len() {
        true => &operations[offsets[layer] as usize..offsets[layer + 1] as usize],
        false => &[],
    };
    let m = operations.len();
    let some = [0, m.saturating_sub(1), m, m + 1, noise.below(m + 1), noise.below(m + 1), usize::MAX];
    for layer in some {
        let given = layer_at(operations, offsets, layer);
        if given != part(layer) {
            return Some(format!("layer_at({operations:?}, {offsets:?}, {layer}) is {given:?}"));
        }
    }
    let all: Vec<&[u32]> = Layers::new(operations, offsets).collect();
    let expected: Vec<&[u32]> = (0..if sound { m } else { 0 }).map(part).collect();
    (all != expected).then(|| format!("the layers of {operations:?}, {offsets:?} are {all:?}"))
}

/// One more than the operations, first 0, never falling, last their number.
fn sound(operations: &[u32], offsets: &[u32]) -> bool {
    offsets.len() == operations.len() + 1
        && offsets[0] == 0
        && offsets.windows(2).all(|pair| pair[0] <= pair[1])
        && offsets[operations.len()] as usize == operations.len()
}

fn damaged(offsets: &[u32], m: u32, noise: &mut Noise) -> Vec<u32> {
    let mut offsets = offsets.to_vec();
    match noise.below(8) {
        0 => offsets.push(m),
        1 => drop(offsets.pop()),
        _ => {
            let place = noise.below(offsets.len());
            let near = offsets[place];
            let choices = [0, near.wrapping_sub(1), near.wrapping_add(1), m, m.wrapping_add(1), u32::MAX];
            offsets[place] = choices[noise.below(choices.len())];
        }
    }
    offsets
}
