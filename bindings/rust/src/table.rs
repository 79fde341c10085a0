//! Rows of numbers, as a length list and a values list.

/// Rows of numbers: the lengths of the rows, and their entries one behind the other.
///
/// ```
/// use tiwelzam::Table;
///
/// let table = Table { lengths: vec![2, 0, 1], values: vec![5, 6, 7] };
/// let rows: Vec<&[u32]> = table.rows().collect();
/// assert_eq!(rows, [&[5, 6][..], &[], &[7]]);
/// ```
#[derive(Clone, Debug, Default, PartialEq, Eq)]
pub struct Table {
    /// How long each row is.
    pub lengths: Vec<u32>,
    /// The entries of all rows.
    pub values: Vec<u32>,
}

impl Table {
    /// The rows, in order. Ends early where the lengths sum to more than there are values.
    pub fn rows(&self) -> impl Iterator<Item = &[u32]> + '_ {
        let mut rest = &self.values[..];
        self.lengths.iter().map_while(move |&length| {
            let length = length as usize;
            let row = rest.get(..length)?;
            rest = &rest[length..];
            Some(row)
        })
    }
}
