//! Maps from one drawing into another.
use crate::calls::{ask, done, verdict, UNWRITTEN};
use crate::{Drawing, Refusal, Workspace};

/// A map: where each item goes, and how many places there are.
#[derive(Clone, Copy, Debug, Default, PartialEq, Eq)]
pub struct Map<'a> {
    /// For each item the place it goes to.
    pub entries: &'a [u32],
    /// The declared target: how many places there are.
    pub target: u32,
}

/// A map of nodes and a map of operations, from one drawing into another.
#[derive(Clone, Copy, Debug, Default, PartialEq, Eq)]
pub struct Maps<'a> {
    /// Where the nodes go.
    pub w: Map<'a>,
    /// Where the operations go.
    pub x: Map<'a>,
}

impl<'a> Maps<'a> {
    /// The maps with these entries into a drawing.
    ///
    /// ```
    /// use tiwelzam::{Drawing, Map, Maps};
    ///
    /// let drawing = Drawing { nodes: &[0, 0], ..Drawing::EMPTY };
    /// let maps = Maps::into_drawing(&[1], &[], &drawing);
    /// assert_eq!(maps.w, Map { entries: &[1], target: 2 });
    /// assert_eq!(maps.x, Map { entries: &[], target: 0 });
    /// ```
    pub fn into_drawing(w: &'a [u32], x: &'a [u32], target: &Drawing) -> Maps<'a> {
        let count = |items: &[u32]| u32::try_from(items.len()).unwrap_or(u32::MAX);
        Maps {
            w: Map { entries: w, target: count(target.nodes) },
            x: Map { entries: x, target: count(target.operations) },
        }
    }

    /// How many words [`Maps::is_monomorphism_in`] needs: the larger declared target.
    pub fn workspace_need(&self) -> usize {
        self.w.target.max(self.x.target) as usize
    }

    /// Whether both maps are accepted by themselves. Refuses with 1 or 4.
    ///
    /// ```
    /// use tiwelzam::{Map, Maps, Refusal};
    ///
    /// let maps = Maps { w: Map { entries: &[0, 2], target: 3 }, ..Maps::default() };
    /// assert_eq!(maps.check(), Ok(()));
    /// let maps = Maps { w: Map { entries: &[0, 3], target: 3 }, ..Maps::default() };
    /// assert_eq!(maps.check(), Err(Refusal::BadEntry));
    /// ```
    pub fn check(&self) -> Result<(), Refusal> {
        done(ask!(tiwelzam_check_maps(maps self)))
    }

    /// Whether the maps are natural: they fit the drawings, and carry labels, sources and targets. Refuses with 1 to 4
    /// what is no drawing or no map, and with 5 to 10 what is not natural.
    ///
    /// ```
    /// use tiwelzam::{Drawing, Maps, Refusal};
    ///
    /// let lists = (&[1][..], &[0][..], &[1][..]);
    /// let (source_lengths, sources, targets) = lists;
    /// let target_lengths = source_lengths;
    /// let drawing =
    ///     Drawing { nodes: &[0, 0], operations: &[5], source_lengths, sources, target_lengths, targets };
    /// let whole = Maps::into_drawing(&[0, 1], &[0], &drawing);
    /// assert_eq!(whole.validate(&drawing, &drawing), Ok(()));
    /// let turned = Maps::into_drawing(&[1, 0], &[0], &drawing);
    /// assert_eq!(turned.validate(&drawing, &drawing), Err(Refusal::NotNaturalS));
    /// ```
    pub fn validate(&self, source: &Drawing, target: &Drawing) -> Result<(), Refusal> {
        done(ask!(tiwelzam_validate(drawing source, drawing target, maps self)))
    }

    /// Whether no entry stands twice in a map. Refuses with 1 or 4. Looks at no drawing.
    ///
    /// ```
    /// use tiwelzam::{Map, Maps, Workspace};
    ///
    /// let mut workspace = Workspace::new();
    /// let maps = Maps { w: Map { entries: &[2, 0], target: 3 }, ..Maps::default() };
    /// assert!(maps.is_monomorphism(&mut workspace)?);
    /// let maps = Maps { w: Map { entries: &[2, 2], target: 3 }, ..Maps::default() };
    /// assert!(!maps.is_monomorphism(&mut workspace)?);
    /// # Ok::<(), tiwelzam::Refusal>(())
    /// ```
    pub fn is_monomorphism(&self, workspace: &mut Workspace) -> Result<bool, Refusal> {
        self.is_monomorphism_in(workspace.lend(self.workspace_need()))
    }

    /// [`Maps::is_monomorphism`] in lent memory: as many words as [`Maps::workspace_need`] says, which stand for W.
    ///
    /// ```
    /// use tiwelzam::{Map, Maps, Refusal};
    ///
    /// let maps = Maps { w: Map { entries: &[2, 0], target: 3 }, ..Maps::default() };
    /// let mut workspace = [7; 4];
    /// assert_eq!(maps.is_monomorphism_in(&mut workspace), Ok(true));
    /// assert_eq!(workspace, [0, 0, 0, 7]);
    /// assert_eq!(maps.is_monomorphism_in(&mut workspace[..2]), Err(Refusal::ShortRoom));
    /// ```
    pub fn is_monomorphism_in(&self, workspace: &mut [u32]) -> Result<bool, Refusal> {
        let mut word = UNWRITTEN;
        let number = ask!(tiwelzam_is_monomorphism(maps self, room workspace, word word));
        verdict(number, word)
    }

    /// Whether the maps select a convex part of the target: they are natural, no entry stands twice, and no directed
    /// path of one or more operations from a selected node to a selected node begins with an unselected operation.
    /// Refuses with 1 to 4; maps that are not natural get a plain no.
    ///
    /// ```
    /// use tiwelzam::{Drawing, Maps, Workspace};
    ///
    /// // Operations 0 to 1, 1 to 2, and 0 to 2.
    /// let drawing = Drawing {
    ///     nodes: &[0, 0, 0],
    ///     operations: &[0, 0, 0],
    ///     source_lengths: &[1, 1, 1],
    ///     sources: &[0, 1, 0],
    ///     target_lengths: &[1, 1, 1],
    ///     targets: &[1, 2, 2],
    /// };
    /// let mut workspace = Workspace::new();
    ///
    /// // Nodes 0 and 1 with the operation between them.
    /// let part = Drawing {
    ///     nodes: &[0, 0],
    ///     operations: &[0],
    ///     source_lengths: &[1],
    ///     sources: &[0],
    ///     target_lengths: &[1],
    ///     targets: &[1],
    /// };
    /// let maps = Maps::into_drawing(&[0, 1], &[0], &drawing);
    /// assert!(maps.is_convex_subgraph(&part, &drawing, &mut workspace)?);
    ///
    /// // Nodes 0 and 2 alone: both ways between them are unselected.
    /// let part = Drawing { nodes: &[0, 0], ..Drawing::EMPTY };
    /// let maps = Maps::into_drawing(&[0, 2], &[], &drawing);
    /// assert!(!maps.is_convex_subgraph(&part, &drawing, &mut workspace)?);
    /// # Ok::<(), tiwelzam::Refusal>(())
    /// ```
    pub fn is_convex_subgraph(
        &self,
        source: &Drawing,
        target: &Drawing,
        workspace: &mut Workspace,
    ) -> Result<bool, Refusal> {
        self.is_convex_subgraph_in(source, target, workspace.lend(target.workspace_need()))
    }

    /// [`Maps::is_convex_subgraph`] in lent memory: W words of the target drawing.
    ///
    /// ```
    /// use tiwelzam::{Drawing, Maps, Refusal};
    ///
    /// let none = Drawing::EMPTY;
    /// let maps = Maps::into_drawing(&[], &[], &none);
    /// assert_eq!(maps.is_convex_subgraph_in(&none, &none, &mut [7; 8]), Ok(true));
    /// assert_eq!(maps.is_convex_subgraph_in(&none, &none, &mut [7; 7]), Err(Refusal::ShortRoom));
    /// ```
    pub fn is_convex_subgraph_in(
        &self,
        source: &Drawing,
        target: &Drawing,
        workspace: &mut [u32],
    ) -> Result<bool, Refusal> {
        let mut word = UNWRITTEN;
        let number = ask!(tiwelzam_is_convex_subgraph(
            drawing source, drawing target, maps self, room workspace, word word));
        verdict(number, word)
    }
}
