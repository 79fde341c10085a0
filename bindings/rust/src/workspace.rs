//! Memory that calls work in.
use crate::{LIMIT, VALUES_LIMIT};

/// The most that any call needs: W of the largest drawing.
const MOST: usize = 8 * (LIMIT + LIMIT) + 2 * (VALUES_LIMIT + VALUES_LIMIT) + 8;

/// Memory that calls work in. It grows to what a call needs and can be used for any number of calls.
///
/// What it held before is of no consequence; afterwards it holds zeros.
///
/// ```
/// use tiwelzam::{Drawing, Workspace};
///
/// let mut workspace = Workspace::new();
/// assert!(Drawing::EMPTY.is_acyclic(&mut workspace)?);
/// assert_eq!(workspace.len(), Drawing::EMPTY.workspace_need());
/// # Ok::<(), tiwelzam::Refusal>(())
/// ```
#[derive(Clone, Debug, Default)]
pub struct Workspace {
    words: Vec<u32>,
}

impl Workspace {
    /// An empty one.
    pub const fn new() -> Workspace {
        Workspace { words: Vec::new() }
    }

    /// How many words it has by now.
    pub fn len(&self) -> usize {
        self.words.len()
    }

    /// Whether no call has needed it yet.
    pub fn is_empty(&self) -> bool {
        self.words.is_empty()
    }

    /// This many words. No more than any accepted call needs: where more is asked, the call refuses with 1.
    pub(crate) fn lend(&mut self, need: usize) -> &mut [u32] {
        let need = need.min(MOST);
        if self.words.len() < need {
            self.words.resize(need, 0);
        }
        &mut self.words[..need]
    }
}
