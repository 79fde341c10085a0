//! 01's operation table: what an operation with this label does with its inputs.

/// The operation's outputs, or nothing where its label or one of its counts is wrong (14).
pub fn apply(label: u32, inputs: &[u32], outputs: usize) -> Option<Vec<u32>> {
    if label == 0 {
        return match inputs {
            [value] if outputs >= 1 => Some(vec![*value; outputs]),
            _ => None,
        };
    }
    if outputs != 1 {
        return None;
    }
    let result = match (label, inputs) {
        (1, [a, b]) => a.wrapping_add(*b),
        (2, [a, b]) => a.abs_diff(*b),
        (3, [..]) => *inputs.iter().min()?,
        (4, [..]) => *inputs.iter().max()?,
        (5, [a, b]) => a.wrapping_add(*b) / 2,
        (6, [condition, yes, no]) => *if *condition != 0 { yes } else { no },
        (7, [..]) => {
            let smallest = inputs.iter().min()?;
            inputs.iter().position(|value| value == smallest)? as u32
        }
        (16..=31, [value]) => value >> (label - 16),
        (256..=511, []) => label - 256,
        _ => return None,
    };
    Some(vec![result])
}
