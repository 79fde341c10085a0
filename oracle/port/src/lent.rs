//! Memory that is lent to a call, and what the call may leave in it.
use crate::case::Case;
use tiwelzam::Refusal;

/// What a call says where it refuses nothing.
#[derive(Debug, PartialEq)]
pub struct Answer {
    pub verdict: Option<bool>,
    pub lists: Vec<Vec<u32>>,
}

pub type Answered = Result<Answer, Refusal>;

/// A call that is lent memory.
pub struct Call<'a> {
    /// How many words of each output an accepted call writes.
    pub outputs: Vec<usize>,
    /// How many words of workspace it needs.
    pub workspace: usize,
    /// The call, in lent outputs and workspace.
    pub lent: &'a dyn Fn(&mut [Vec<u32>], &mut [u32]) -> Result<Option<bool>, Refusal>,
    /// The same call where it makes its own results.
    pub made: &'a dyn Fn() -> Answered,
}

/// How many words of each output, and of workspace, are lent.
struct Lengths {
    outputs: Vec<usize>,
    workspace: usize,
}

impl Call<'_> {
    /// The answer in the rooms of the case; an error says what is wrong with it, or with what other rooms give.
    pub fn answer(&self, case: &Case) -> Result<Answered, String> {
        let mut noise = Noise::of(&case.name);
        let given = self.attempt(self.lengths_of(case, &mut noise), &mut noise)?;
        let exact = self.attempt(self.exact(), &mut noise)?;
        if given != exact && given != Err(Refusal::ShortRoom) {
            return Err(format!("in exact rooms {exact:?}"));
        }
        if (self.made)() != exact {
            return Err(format!("making its results {:?}", (self.made)()));
        }
        let short = if exact.as_ref().is_err_and(|&refusal| early(refusal)) {
            exact.as_ref().err().copied()
        } else {
            Some(Refusal::ShortRoom)
        };
        for lengths in self.one_short() {
            let answered = self.attempt(lengths, &mut noise)?;
            if answered.as_ref().err() != short.as_ref() {
                return Err(format!("one word short {answered:?}"));
            }
        }
        Ok(given)
    }

    /// The lengths of a case: shorter than needed by what it says, else as needed or a little longer.
    fn lengths_of(&self, case: &Case, noise: &mut Noise) -> Lengths {
        let mut lent = |need: usize, short: u32| match short {
            0 => need + noise.below(4),
            short => need.saturating_sub(short as usize),
        };
        let shorts = case.output_short.iter().copied().chain(std::iter::repeat(0));
        Lengths {
            outputs: self.outputs.iter().zip(shorts).map(|(&need, short)| lent(need, short)).collect(),
            workspace: lent(self.workspace, case.workspace_short),
        }
    }

    fn exact(&self) -> Lengths {
        Lengths { outputs: self.outputs.clone(), workspace: self.workspace }
    }

    /// Lengths of which one is a word short and the others are as needed.
    fn one_short(&self) -> Vec<Lengths> {
        let mut found = Vec::new();
        if self.workspace > 0 {
            found.push(Lengths { workspace: self.workspace - 1, ..self.exact() });
        }
        for (place, &need) in self.outputs.iter().enumerate() {
            if need > 0 {
                let mut lengths = self.exact();
                lengths.outputs[place] = need - 1;
                found.push(lengths);
            }
        }
        found
    }

    /// Makes the call in rooms full of noise and tests what it leaves in them.
    fn attempt(&self, lengths: Lengths, noise: &mut Noise) -> Result<Answered, String> {
        let before: Vec<Vec<u32>> = lengths.outputs.iter().map(|&count| noise.words(count)).collect();
        let workspace_before = noise.words(lengths.workspace);
        let (mut after, mut workspace) = (before.clone(), workspace_before.clone());
        let answered = (self.lent)(&mut after, &mut workspace);

        let kept = match answered {
            Ok(_) => self.outputs.clone(),
            Err(_) => vec![0; self.outputs.len()],
        };
        for (place, &start) in kept.iter().enumerate() {
            if after[place][start..] != before[place][start..] {
                return Err(format!("output {place} is changed behind word {start}, {answered:?}"));
            }
        }
        let cleared = match answered {
            Err(refusal) if early(refusal) => 0,
            _ => self.workspace,
        };
        if workspace[..cleared].iter().any(|&word| word != 0) {
            return Err(format!("the workspace is not cleared, {answered:?}"));
        }
        if workspace[cleared..] != workspace_before[cleared..] {
            return Err(format!("the workspace is changed behind word {cleared}, {answered:?}"));
        }
        for (list, &need) in after.iter_mut().zip(&self.outputs) {
            list.truncate(need);
        }
        Ok(answered.map(|verdict| Answer { verdict, lists: after }))
    }
}

/// The refusals that leave the workspace untouched.
fn early(refusal: Refusal) -> bool {
    matches!(refusal.number(), 1 | 2 | 3 | 4 | 11 | 12)
}

/// Numbers that look random and are the same in each run.
pub struct Noise(u64);

impl Noise {
    pub fn of(name: &str) -> Noise {
        Noise(
            name.bytes()
                .fold(0xcbf29ce484222325, |hash, byte| (hash ^ u64::from(byte)).wrapping_mul(0x100000001b3)),
        )
    }

    /// splitmix64
    fn next(&mut self) -> u64 {
        self.0 = self.0.wrapping_add(0x9e3779b97f4a7c15);
        let mixed = (self.0 ^ (self.0 >> 30)).wrapping_mul(0xbf58476d1ce4e5b9);
        let mixed = (mixed ^ (mixed >> 27)).wrapping_mul(0x94d049bb133111eb);
        mixed ^ (mixed >> 31)
    }

    pub fn below(&mut self, bound: usize) -> usize {
        (self.next() % bound as u64) as usize
    }

    /// Words of which none is 0, so that a cleared word shows.
    fn words(&mut self, count: usize) -> Vec<u32> {
        (0..count).map(|_| (self.next() >> 32) as u32 | 1).collect()
    }
}
