//! A drawing, and the calls that look at one.
use crate::calls::{ask, done, told, verdict, UNWRITTEN};
use crate::{LayeredOperations, Refusal, Table, Workspace, LIMIT, VALUES_LIMIT};

/// A drawing: labelled nodes, labelled operations, and for each operation a list of sources and a list of targets.
///
/// Accepted are at most 4,096 nodes and operations and 16,384 source values and target values, where each length list
/// has an entry for each operation and sums to the count of its values, and each value is below the number of nodes.
#[derive(Clone, Copy, Debug, Default, PartialEq, Eq)]
pub struct Drawing<'a> {
    /// A label for each node.
    pub nodes: &'a [u32],
    /// A label for each operation.
    pub operations: &'a [u32],
    /// How many sources each operation has.
    pub source_lengths: &'a [u32],
    /// The sources of all operations, one behind the other.
    pub sources: &'a [u32],
    /// How many targets each operation has.
    pub target_lengths: &'a [u32],
    /// The targets of all operations, one behind the other.
    pub targets: &'a [u32],
}

/// What [`Drawing::layer`] gives.
#[derive(Clone, Debug, Default, PartialEq, Eq)]
pub struct Layering {
    /// For each placed operation the number of steps of the longest chain that ends in it; 0 for an unplaced one.
    pub orders: Vec<u32>,
    /// For each operation 0 if it is placed, 1 if it lies on a cycle or behind one.
    pub marks: Vec<u32>,
}

impl Drawing<'_> {
    /// No nodes and no operations.
    pub const EMPTY: Drawing<'static> = Drawing {
        nodes: &[],
        operations: &[],
        source_lengths: &[],
        sources: &[],
        target_lengths: &[],
        targets: &[],
    };

    /// How many words of workspace a call needs: W = 8(n + m) + 2(S + T) + 8.
    ///
    /// ```
    /// use tiwelzam::Drawing;
    ///
    /// let drawing = Drawing { nodes: &[0, 0], ..Drawing::EMPTY };
    /// assert_eq!(drawing.workspace_need(), 24);
    /// ```
    pub fn workspace_need(&self) -> usize {
        let items = self.nodes.len().saturating_add(self.operations.len());
        let values = self.sources.len().saturating_add(self.targets.len());
        items.saturating_mul(8).saturating_add(values.saturating_mul(2)).saturating_add(8)
    }

    /// Whether the drawing is accepted. Refuses with 1, 2 or 3.
    ///
    /// ```
    /// use tiwelzam::{Drawing, Refusal};
    ///
    /// let drawing = Drawing {
    ///     nodes: &[0, 0],
    ///     operations: &[0],
    ///     source_lengths: &[1],
    ///     sources: &[0],
    ///     target_lengths: &[1],
    ///     targets: &[1],
    /// };
    /// assert_eq!(drawing.check(), Ok(()));
    /// assert_eq!(Drawing { nodes: &[0], ..drawing }.check(), Err(Refusal::BadValue));
    /// assert_eq!(Drawing { targets: &[], ..drawing }.check(), Err(Refusal::BadLengths));
    /// assert_eq!(Drawing { nodes: &[0; 4097], ..drawing }.check(), Err(Refusal::OverLimit));
    /// ```
    pub fn check(&self) -> Result<(), Refusal> {
        done(ask!(tiwelzam_check_drawing(drawing self)))
    }

    /// For each node the operations that list it as a source, ascending, once per listing. Refuses with 1, 2 or 3.
    ///
    /// ```
    /// use tiwelzam::{Drawing, Table, Workspace};
    ///
    /// // None to 0, and (0, 0) to 1.
    /// let drawing = Drawing {
    ///     nodes: &[0, 0],
    ///     operations: &[0, 0],
    ///     source_lengths: &[0, 2],
    ///     sources: &[0, 0],
    ///     target_lengths: &[1, 1],
    ///     targets: &[0, 1],
    /// };
    /// let table = drawing.source_converse(&mut Workspace::new())?;
    /// assert_eq!(table, Table { lengths: vec![2, 0], values: vec![1, 1] });
    /// # Ok::<(), tiwelzam::Refusal>(())
    /// ```
    pub fn source_converse(&self, workspace: &mut Workspace) -> Result<Table, Refusal> {
        let mut table = blank(self.nodes.len().min(LIMIT), self.sources.len().min(VALUES_LIMIT));
        let workspace = workspace.lend(self.workspace_need());
        self.source_converse_into(&mut table.lengths, &mut table.values, workspace)?;
        Ok(table)
    }

    /// [`Drawing::source_converse`] into lent memory: n lengths, S values and W words.
    ///
    /// ```
    /// use tiwelzam::Drawing;
    ///
    /// let drawing = Drawing { nodes: &[0], ..Drawing::EMPTY };
    /// let mut lengths = [7; 2];
    /// drawing.source_converse_into(&mut lengths, &mut [], &mut [7; 16])?;
    /// assert_eq!(lengths, [0, 7]);
    /// # Ok::<(), tiwelzam::Refusal>(())
    /// ```
    pub fn source_converse_into(
        &self,
        lengths: &mut [u32],
        values: &mut [u32],
        workspace: &mut [u32],
    ) -> Result<(), Refusal> {
        done(ask!(tiwelzam_source_converse(drawing self, room lengths, room values, room workspace)))
    }

    /// For each node the operations that list it as a target, ascending, once per listing. Refuses with 1, 2 or 3.
    ///
    /// ```
    /// use tiwelzam::{Drawing, Table, Workspace};
    ///
    /// // None to 0, and (0, 0) to 1.
    /// let drawing = Drawing {
    ///     nodes: &[0, 0],
    ///     operations: &[0, 0],
    ///     source_lengths: &[0, 2],
    ///     sources: &[0, 0],
    ///     target_lengths: &[1, 1],
    ///     targets: &[0, 1],
    /// };
    /// let table = drawing.target_converse(&mut Workspace::new())?;
    /// assert_eq!(table, Table { lengths: vec![1, 1], values: vec![0, 1] });
    /// # Ok::<(), tiwelzam::Refusal>(())
    /// ```
    pub fn target_converse(&self, workspace: &mut Workspace) -> Result<Table, Refusal> {
        let mut table = blank(self.nodes.len().min(LIMIT), self.targets.len().min(VALUES_LIMIT));
        let workspace = workspace.lend(self.workspace_need());
        self.target_converse_into(&mut table.lengths, &mut table.values, workspace)?;
        Ok(table)
    }

    /// [`Drawing::target_converse`] into lent memory: n lengths, T values and W words.
    ///
    /// ```
    /// use tiwelzam::Drawing;
    ///
    /// let drawing = Drawing { nodes: &[0], ..Drawing::EMPTY };
    /// let mut lengths = [7; 2];
    /// drawing.target_converse_into(&mut lengths, &mut [], &mut [7; 16])?;
    /// assert_eq!(lengths, [0, 7]);
    /// # Ok::<(), tiwelzam::Refusal>(())
    /// ```
    pub fn target_converse_into(
        &self,
        lengths: &mut [u32],
        values: &mut [u32],
        workspace: &mut [u32],
    ) -> Result<(), Refusal> {
        done(ask!(tiwelzam_target_converse(drawing self, room lengths, room values, room workspace)))
    }

    /// How many values [`Drawing::node_adjacency`] gives; up to 2^28. Refuses with 1, 2 or 3.
    ///
    /// ```
    /// use tiwelzam::Drawing;
    ///
    /// // (1, 1) to (2, 0)
    /// let drawing = Drawing {
    ///     nodes: &[0, 0, 0],
    ///     operations: &[0],
    ///     source_lengths: &[2],
    ///     sources: &[1, 1],
    ///     target_lengths: &[2],
    ///     targets: &[2, 0],
    /// };
    /// assert_eq!(drawing.node_adjacency_size()?, 4);
    /// # Ok::<(), tiwelzam::Refusal>(())
    /// ```
    pub fn node_adjacency_size(&self) -> Result<usize, Refusal> {
        let mut word = UNWRITTEN;
        let number = ask!(tiwelzam_node_adjacency_size(drawing self, word word));
        told(number, word).map(|size| size as usize)
    }

    /// For each node, and each operation that lists it as a source, that operation's targets in order. Repeats stay.
    /// Refuses with 1, 2 or 3. [`Drawing::node_adjacency_size`] says how much memory it takes.
    ///
    /// ```
    /// use tiwelzam::{Drawing, Table, Workspace};
    ///
    /// // (1, 1) to (2, 0)
    /// let drawing = Drawing {
    ///     nodes: &[0, 0, 0],
    ///     operations: &[0],
    ///     source_lengths: &[2],
    ///     sources: &[1, 1],
    ///     target_lengths: &[2],
    ///     targets: &[2, 0],
    /// };
    /// let table = drawing.node_adjacency(&mut Workspace::new())?;
    /// assert_eq!(table, Table { lengths: vec![0, 4, 0], values: vec![2, 0, 2, 0] });
    /// # Ok::<(), tiwelzam::Refusal>(())
    /// ```
    pub fn node_adjacency(&self, workspace: &mut Workspace) -> Result<Table, Refusal> {
        let mut table = blank(self.nodes.len(), self.node_adjacency_size()?);
        let workspace = workspace.lend(self.workspace_need());
        self.node_adjacency_into(&mut table.lengths, &mut table.values, workspace)?;
        Ok(table)
    }

    /// [`Drawing::node_adjacency`] into lent memory: n lengths, [`Drawing::node_adjacency_size`] values and W words.
    ///
    /// ```
    /// use tiwelzam::Drawing;
    ///
    /// let drawing = Drawing { nodes: &[0], ..Drawing::EMPTY };
    /// let mut lengths = [7; 2];
    /// drawing.node_adjacency_into(&mut lengths, &mut [], &mut [7; 16])?;
    /// assert_eq!(lengths, [0, 7]);
    /// # Ok::<(), tiwelzam::Refusal>(())
    /// ```
    pub fn node_adjacency_into(
        &self,
        lengths: &mut [u32],
        values: &mut [u32],
        workspace: &mut [u32],
    ) -> Result<(), Refusal> {
        done(ask!(tiwelzam_node_adjacency(drawing self, room lengths, room values, room workspace)))
    }

    /// How many values [`Drawing::operation_adjacency`] gives; up to 2^28. Refuses with 1, 2 or 3.
    ///
    /// ```
    /// use tiwelzam::Drawing;
    ///
    /// // None to 0, and (0, 0) to 1.
    /// let drawing = Drawing {
    ///     nodes: &[0, 0],
    ///     operations: &[0, 0],
    ///     source_lengths: &[0, 2],
    ///     sources: &[0, 0],
    ///     target_lengths: &[1, 1],
    ///     targets: &[0, 1],
    /// };
    /// assert_eq!(drawing.operation_adjacency_size()?, 2);
    /// # Ok::<(), tiwelzam::Refusal>(())
    /// ```
    pub fn operation_adjacency_size(&self) -> Result<usize, Refusal> {
        let mut word = UNWRITTEN;
        let number = ask!(tiwelzam_operation_adjacency_size(drawing self, word word));
        told(number, word).map(|size| size as usize)
    }

    /// For each operation, and each of its targets in order, the operations that list that node as a source. Repeats
    /// stay. Refuses with 1, 2 or 3. [`Drawing::operation_adjacency_size`] says how much memory it takes.
    ///
    /// ```
    /// use tiwelzam::{Drawing, Table, Workspace};
    ///
    /// // None to 0, and (0, 0) to 1.
    /// let drawing = Drawing {
    ///     nodes: &[0, 0],
    ///     operations: &[0, 0],
    ///     source_lengths: &[0, 2],
    ///     sources: &[0, 0],
    ///     target_lengths: &[1, 1],
    ///     targets: &[0, 1],
    /// };
    /// let table = drawing.operation_adjacency(&mut Workspace::new())?;
    /// assert_eq!(table, Table { lengths: vec![2, 0], values: vec![1, 1] });
    /// # Ok::<(), tiwelzam::Refusal>(())
    /// ```
    pub fn operation_adjacency(&self, workspace: &mut Workspace) -> Result<Table, Refusal> {
        let mut table = blank(self.operations.len(), self.operation_adjacency_size()?);
        let workspace = workspace.lend(self.workspace_need());
        self.operation_adjacency_into(&mut table.lengths, &mut table.values, workspace)?;
        Ok(table)
    }

    /// [`Drawing::operation_adjacency`] into lent memory: m lengths, [`Drawing::operation_adjacency_size`] values and
    /// W words.
    ///
    /// ```
    /// use tiwelzam::Drawing;
    ///
    /// let mut lengths = [7; 2];
    /// Drawing::EMPTY.operation_adjacency_into(&mut lengths, &mut [], &mut [7; 8])?;
    /// assert_eq!(lengths, [7, 7]);
    /// # Ok::<(), tiwelzam::Refusal>(())
    /// ```
    pub fn operation_adjacency_into(
        &self,
        lengths: &mut [u32],
        values: &mut [u32],
        workspace: &mut [u32],
    ) -> Result<(), Refusal> {
        done(ask!(tiwelzam_operation_adjacency(drawing self, room lengths, room values, room workspace)))
    }

    /// Whether no node lies on a directed cycle. Refuses with 1, 2 or 3.
    ///
    /// ```
    /// use tiwelzam::{Drawing, Workspace};
    ///
    /// let mut workspace = Workspace::new();
    /// let forth = Drawing {
    ///     nodes: &[0, 0],
    ///     operations: &[0],
    ///     source_lengths: &[1],
    ///     sources: &[0],
    ///     target_lengths: &[1],
    ///     targets: &[1],
    /// };
    /// assert!(forth.is_acyclic(&mut workspace)?);
    /// let onto_itself = Drawing { targets: &[0], ..forth };
    /// assert!(!onto_itself.is_acyclic(&mut workspace)?);
    /// # Ok::<(), tiwelzam::Refusal>(())
    /// ```
    pub fn is_acyclic(&self, workspace: &mut Workspace) -> Result<bool, Refusal> {
        self.is_acyclic_in(workspace.lend(self.workspace_need()))
    }

    /// [`Drawing::is_acyclic`] in lent memory: W words.
    ///
    /// ```
    /// use tiwelzam::{Drawing, Refusal};
    ///
    /// let mut workspace = [7; 9];
    /// assert_eq!(Drawing::EMPTY.is_acyclic_in(&mut workspace), Ok(true));
    /// assert_eq!(workspace, [0, 0, 0, 0, 0, 0, 0, 0, 7]);
    /// assert_eq!(Drawing::EMPTY.is_acyclic_in(&mut workspace[..7]), Err(Refusal::ShortRoom));
    /// ```
    pub fn is_acyclic_in(&self, workspace: &mut [u32]) -> Result<bool, Refusal> {
        let mut word = UNWRITTEN;
        let number = ask!(tiwelzam_is_acyclic(drawing self, room workspace, word word));
        verdict(number, word)
    }

    /// For each operation its layer, and whether it is placed in one. Refuses with 1, 2 or 3.
    ///
    /// ```
    /// use tiwelzam::{Drawing, Workspace};
    ///
    /// // Operations 0 to 1, 1 to 0, 1 to 2, and none to 3: the first two turn in a circle, the third is behind it.
    /// let drawing = Drawing {
    ///     nodes: &[0; 4],
    ///     operations: &[0; 4],
    ///     source_lengths: &[1, 1, 1, 0],
    ///     sources: &[0, 1, 1],
    ///     target_lengths: &[1; 4],
    ///     targets: &[1, 0, 2, 3],
    /// };
    /// let layering = drawing.layer(&mut Workspace::new())?;
    /// assert_eq!(layering.orders, [0, 0, 0, 0]);
    /// assert_eq!(layering.marks, [1, 1, 1, 0]);
    /// # Ok::<(), tiwelzam::Refusal>(())
    /// ```
    pub fn layer(&self, workspace: &mut Workspace) -> Result<Layering, Refusal> {
        let m = self.operations.len().min(LIMIT);
        let mut layering = Layering { orders: vec![0; m], marks: vec![0; m] };
        let workspace = workspace.lend(self.workspace_need());
        self.layer_into(&mut layering.orders, &mut layering.marks, workspace)?;
        Ok(layering)
    }

    /// [`Drawing::layer`] into lent memory: m orders, m marks and W words.
    ///
    /// ```
    /// use tiwelzam::Drawing;
    ///
    /// let drawing = Drawing { operations: &[0], source_lengths: &[0], target_lengths: &[0], ..Drawing::EMPTY };
    /// let (mut orders, mut marks) = ([7; 2], [7; 1]);
    /// drawing.layer_into(&mut orders, &mut marks, &mut [7; 16])?;
    /// assert_eq!((orders, marks), ([0, 7], [0]));
    /// # Ok::<(), tiwelzam::Refusal>(())
    /// ```
    pub fn layer_into(
        &self,
        orders: &mut [u32],
        marks: &mut [u32],
        workspace: &mut [u32],
    ) -> Result<(), Refusal> {
        done(ask!(tiwelzam_layer(drawing self, room orders, room marks, room workspace)))
    }

    /// The operations in layers: exactly m of them, layer i with the operations of order i, ascending. Refuses with 1,
    /// 2 or 3.
    ///
    /// ```
    /// use tiwelzam::{Drawing, Workspace};
    ///
    /// // None to 0, and (0, 0) to 1.
    /// let drawing = Drawing {
    ///     nodes: &[0, 0],
    ///     operations: &[0, 0],
    ///     source_lengths: &[0, 2],
    ///     sources: &[0, 0],
    ///     target_lengths: &[1, 1],
    ///     targets: &[0, 1],
    /// };
    /// let layered = drawing.layered_operations(&mut Workspace::new())?;
    /// assert_eq!(layered.operations, [0, 1]);
    /// assert_eq!(layered.offsets, [0, 1, 2]);
    /// assert_eq!(layered.marks, [0, 0]);
    /// # Ok::<(), tiwelzam::Refusal>(())
    /// ```
    pub fn layered_operations(&self, workspace: &mut Workspace) -> Result<LayeredOperations, Refusal> {
        let m = self.operations.len().min(LIMIT);
        let mut layered =
            LayeredOperations { operations: vec![0; m], offsets: vec![0; m + 1], marks: vec![0; m] };
        let LayeredOperations { operations, offsets, marks } = &mut layered;
        self.layered_operations_into(operations, offsets, marks, workspace.lend(self.workspace_need()))?;
        Ok(layered)
    }

    /// [`Drawing::layered_operations`] into lent memory: m operations, m + 1 offsets, m marks and W words.
    ///
    /// ```
    /// use tiwelzam::Drawing;
    ///
    /// let mut offsets = [7; 2];
    /// Drawing::EMPTY.layered_operations_into(&mut [], &mut offsets, &mut [], &mut [7; 8])?;
    /// assert_eq!(offsets, [0, 7]);
    /// # Ok::<(), tiwelzam::Refusal>(())
    /// ```
    pub fn layered_operations_into(
        &self,
        operations: &mut [u32],
        offsets: &mut [u32],
        marks: &mut [u32],
        workspace: &mut [u32],
    ) -> Result<(), Refusal> {
        done(ask!(tiwelzam_layered_operations(
            drawing self, room operations, room offsets, room marks, room workspace)))
    }
}

/// Room for a table.
fn blank(lengths: usize, values: usize) -> Table {
    Table { lengths: vec![0; lengths], values: vec![0; values] }
}
