//! Where values go in and come out.
use crate::calls::{ask, done};
use crate::{Drawing, Refusal, Workspace, LIMIT};

/// Where the values of a drawing go in and come out: two lists of nodes.
#[derive(Clone, Copy, Debug, Default, PartialEq, Eq)]
pub struct Boundary<'a> {
    /// The nodes that take the input values.
    pub inputs: &'a [u32],
    /// The nodes whose values are the answer.
    pub outputs: &'a [u32],
}

impl Drawing<'_> {
    /// Whether the drawing and its boundary are accepted. Refuses with 1, 2, 3 or 12.
    ///
    /// ```
    /// use tiwelzam::{Boundary, Drawing, Refusal};
    ///
    /// let drawing = Drawing { nodes: &[0, 0], ..Drawing::EMPTY };
    /// assert_eq!(drawing.check_boundary(Boundary { inputs: &[0, 0], outputs: &[1] }), Ok(()));
    /// let outside = Boundary { inputs: &[2], outputs: &[] };
    /// assert_eq!(drawing.check_boundary(outside), Err(Refusal::BadBoundary));
    /// ```
    pub fn check_boundary(&self, boundary: Boundary) -> Result<(), Refusal> {
        done(ask!(tiwelzam_check_boundary(drawing self, list boundary.inputs, list boundary.outputs)))
    }

    /// Runs the drawing: stores the input values at the inputs, applies every operation, layer by layer, and gives the
    /// values at the outputs. Refuses with 1, 2, 3, 12, with 13 if some operation is unplaced, and with 14 if a label
    /// is unknown or its operation has a wrong number of inputs or outputs.
    ///
    /// Where there are more input values than inputs, or fewer, those left over are not used; a node that no input
    /// reaches holds 0. The labels:
    ///
    /// | Label | Inputs, outputs | Result |
    /// |---|---|---|
    /// | 0 | 1, one or more | each output is the input |
    /// | 1 | 2, 1 | sum modulo 2^32 |
    /// | 2 | 2, 1 | larger minus smaller |
    /// | 3, 4 | one or more, 1 | smallest, largest |
    /// | 5 | 2, 1 | middle: the sum modulo 2^32, halved, rounded down |
    /// | 6 | 3, 1 | second if the first is not 0, else third |
    /// | 7 | one or more, 1 | position from 0 of the first smallest |
    /// | 16..31 | 1, 1 | input divided by 2^(label-16), rounded down |
    /// | 256..511 | 0, 1 | label-256 |
    ///
    /// ```
    /// use tiwelzam::{Boundary, Drawing, Workspace};
    ///
    /// // Which of two distances is smaller: |n0 - n1| or |n0 - n2|?
    /// let drawing = Drawing {
    ///     nodes: &[0; 6],
    ///     operations: &[2, 2, 7],
    ///     source_lengths: &[2, 2, 2],
    ///     sources: &[0, 1, 0, 2, 3, 4],
    ///     target_lengths: &[1, 1, 1],
    ///     targets: &[3, 4, 5],
    /// };
    /// let boundary = Boundary { inputs: &[0, 1, 2], outputs: &[5] };
    /// let answer = drawing.eval(boundary, &[100, 90, 130], &mut Workspace::new())?;
    /// assert_eq!(answer, [0]);
    /// # Ok::<(), tiwelzam::Refusal>(())
    /// ```
    pub fn eval(
        &self,
        boundary: Boundary,
        values: &[u32],
        workspace: &mut Workspace,
    ) -> Result<Vec<u32>, Refusal> {
        let mut out = vec![0; boundary.outputs.len().min(LIMIT)];
        self.eval_into(boundary, values, &mut out, workspace.lend(self.workspace_need()))?;
        Ok(out)
    }

    /// [`Drawing::eval`] into lent memory: as many values as there are outputs.
    ///
    /// ```
    /// use tiwelzam::{Boundary, Drawing, Refusal};
    ///
    /// let drawing = Drawing { nodes: &[0], ..Drawing::EMPTY };
    /// let boundary = Boundary { inputs: &[0, 0], outputs: &[0] };
    /// let (mut out, mut workspace) = ([7; 2], [7; 16]);
    /// assert_eq!(drawing.eval_into(boundary, &[1, 2], &mut out, &mut workspace), Ok(()));
    /// assert_eq!((out, workspace), ([2, 7], [0; 16]));
    /// assert_eq!(drawing.eval_into(boundary, &[1, 2], &mut [], &mut workspace), Err(Refusal::ShortRoom));
    /// ```
    pub fn eval_into(
        &self,
        boundary: Boundary,
        values: &[u32],
        out: &mut [u32],
        workspace: &mut [u32],
    ) -> Result<(), Refusal> {
        let Boundary { inputs, outputs } = boundary;
        done(ask!(tiwelzam_eval(
            drawing self, list inputs, list outputs, list values, room out, room workspace)))
    }
}
