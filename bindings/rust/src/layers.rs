//! Operations in layers.
use crate::calls::ask;

/// The operations of a drawing in as many layers as there are operations; many may be empty.
#[derive(Clone, Debug, Default, PartialEq, Eq)]
pub struct LayeredOperations {
    /// All operations, layer by layer, ascending in each.
    pub operations: Vec<u32>,
    /// Where each layer begins in `operations`, and last their number.
    pub offsets: Vec<u32>,
    /// For each operation 0 if it is placed, 1 if it lies on a cycle or behind one. Unplaced ones are in layer 0.
    pub marks: Vec<u32>,
}

impl LayeredOperations {
    /// The layers, first to last.
    ///
    /// ```
    /// use tiwelzam::LayeredOperations;
    ///
    /// let layered = LayeredOperations { operations: vec![0, 2, 1], offsets: vec![0, 2, 3, 3], marks: vec![0; 3] };
    /// let layers: Vec<&[u32]> = layered.layers().collect();
    /// assert_eq!(layers, [&[0, 2][..], &[1], &[]]);
    /// ```
    pub fn layers(&self) -> Layers<'_> {
        Layers::new(&self.operations, &self.offsets)
    }

    /// One layer; the empty one where there is none of this number.
    ///
    /// ```
    /// use tiwelzam::LayeredOperations;
    ///
    /// let layered = LayeredOperations { operations: vec![0, 2, 1], offsets: vec![0, 2, 3, 3], marks: vec![0; 3] };
    /// assert_eq!(layered.layer_at(1), [1]);
    /// assert_eq!(layered.layer_at(9), []);
    /// ```
    pub fn layer_at(&self, layer: usize) -> &[u32] {
        layer_at(&self.operations, &self.offsets, layer)
    }
}

/// Whether offsets are sound: one more than the operations, first 0, never falling, last the operations' number.
///
/// ```
/// use tiwelzam::offsets_sound;
///
/// assert!(offsets_sound(&[0, 2, 1], &[0, 2, 3, 3]));
/// assert!(!offsets_sound(&[0, 2, 1], &[0, 2, 1, 3]));
/// ```
pub fn offsets_sound(operations: &[u32], offsets: &[u32]) -> bool {
    let mut word = 0;
    ask!(tiwelzam_offsets_sound(list operations, list offsets, word word));
    word == 1
}

/// One layer, as a part of the operation list; the empty part if the layer is unknown or the offsets are not sound.
///
/// ```
/// use tiwelzam::layer_at;
///
/// assert_eq!(layer_at(&[0, 2, 1], &[0, 2, 3, 3], 0), [0, 2]);
/// assert_eq!(layer_at(&[0, 2, 1], &[0, 2, 3, 3], 3), []);
/// assert_eq!(layer_at(&[0, 2, 1], &[0, 9, 3, 3], 0), []);
/// ```
pub fn layer_at<'a>(operations: &'a [u32], offsets: &[u32], layer: usize) -> &'a [u32] {
    let (mut start, mut length) = (0, 0);
    ask!(tiwelzam_layer_at(list operations, list offsets, index layer, word start, word length));
    &operations[start as usize..][..length as usize]
}

/// The layers of an operation list, first to last; none where the offsets are not sound.
///
/// ```
/// use tiwelzam::Layers;
///
/// let layers = Layers::new(&[0, 2, 1], &[0, 2, 3, 3]);
/// assert_eq!(layers.len(), 3);
/// assert_eq!(layers.map(<[u32]>::len).collect::<Vec<_>>(), [2, 1, 0]);
/// assert_eq!(Layers::new(&[0, 2, 1], &[0, 9, 3, 3]).len(), 0);
/// ```
#[derive(Clone, Debug)]
pub struct Layers<'a> {
    operations: &'a [u32],
    /// Sound for the operations, or empty; only the windows not yet given are left.
    offsets: &'a [u32],
}

impl<'a> Layers<'a> {
    /// The layers that begin at these offsets.
    pub fn new(operations: &'a [u32], offsets: &'a [u32]) -> Layers<'a> {
        let offsets = if offsets_sound(operations, offsets) { offsets } else { &[] };
        Layers { operations, offsets }
    }
}

impl<'a> Iterator for Layers<'a> {
    type Item = &'a [u32];

    fn next(&mut self) -> Option<&'a [u32]> {
        let [start, end, ..] = *self.offsets else { return None };
        self.offsets = &self.offsets[1..];
        self.operations.get(start as usize..end as usize)
    }

    fn size_hint(&self) -> (usize, Option<usize>) {
        let left = self.offsets.len().saturating_sub(1);
        (left, Some(left))
    }
}

impl ExactSizeIterator for Layers<'_> {}
