//! Every text that is one byte away from a given one: a deletion, an insertion
//! or a substitution.

use crate::call::Refusal;
use crate::cases::TextCase;
use crate::sorts::{named, Sort};
use crate::tally::Floor;
use crate::text::decide;

/// The paper's example, case (i).
pub const PAPER: &[u8] = include_bytes!("../../examples/paper.txt");

/// A request with a buddy check, which sets the first station aside. The distances are 9
/// and 10, and what is compared with 2 times 40 is 82 and 80: any other B leaves the first
/// station in, and so does a greater L; a smaller one sets the third aside too.
pub const CHECKED: &[u8] = b"grid=2,2\ntime=1\nsmooth=0\nscans=2\nscan=99,60\nscan=50,60\n\
    buddy=10,40\nrow=0,0\nrow=0,0\nstations=4\n\
    st=10,0,50,1,0,2\nst=1,0,9,1,0,2\nst=19,0,9,1,0,2\nst=20,0,48,1,0,2\n";

/// The given texts.
pub const GIVEN: [&[u8]; 2] = [PAPER, CHECKED];

/// With this stride about 4,000 texts are left of each given one. It has
/// no divisor in common with 256 or 255, so every byte is met.
pub const STRIDE: u64 = 23;

const EDIT: &str = "text with one byte (deleted, inserted, substituted)";
const OF_A_CHECK: &str = "text near one with a check (accepted with another B or L and another \
    answer, refusal 6 at place 6, refusal 9 at the check's line)";

/// The edits of all given texts, one text after the other.
pub struct Near(Vec<Edits>);

impl Near {
    pub fn new(stride: u64) -> Self {
        Near(GIVEN.iter().map(|text| Edits::new(text, stride)).collect())
    }

    fn sum(&self, of: fn(&Edits) -> [u64; 3]) -> [u64; 3] {
        let sum = |[a, b, c]: [u64; 3], [d, e, f]: [u64; 3]| [a + d, b + e, c + f];
        self.0.iter().map(of).fold([0; 3], sum)
    }

    pub fn count(&self) -> u64 {
        self.0.iter().map(Edits::count).sum()
    }

    pub fn counts(&self) -> String {
        let names = ["deletions", "insertions", "substitutions"];
        let counts = names.iter().zip(self.sum(Edits::run)).zip(self.sum(Edits::whole));
        let counts = counts.map(|((name, run), whole)| format!("{run} of {whole} {name}"));
        counts.collect::<Vec<_>>().join(", ")
    }

    /// As many of each sort as were said, some accepted and some not in form. With any
    /// stride the deletions alone show what becomes of a check.
    pub fn floors(&self) -> Vec<Floor> {
        let edits = (0..).zip(self.sum(Edits::run)).map(|(n, run)| Floor::fixed(EDIT, n, run));
        let outcomes = [Floor::fixed("accepted", 0, 1), Floor::fixed("refusal", 9, 1)];
        let of_a_check = [0, 1, 2].map(|n| Floor::fixed(OF_A_CHECK, n, 1));
        edits.chain(outcomes).chain(of_a_check).collect()
    }

    /// The edit of an index below the count.
    pub fn case(&self, index: u64) -> TextCase {
        let mut left = index;
        let edits = self.0.iter().find(|edits| match left.checked_sub(edits.count()) {
            Some(past) => {
                left = past;
                false
            }
            None => true,
        });
        edits.expect("the index is below the count").case(left)
    }
}

/// The edits of a text: all deletions, and of the others every stride-th.
pub struct Edits {
    text: &'static [u8],
    stride: u64,
}

impl Edits {
    pub fn new(text: &'static [u8], stride: u64) -> Self {
        Edits { text, stride: stride.max(1) }
    }

    /// All edits of the text: deletions, insertions, substitutions.
    pub fn whole(&self) -> [u64; 3] {
        let length = self.text.len() as u64;
        [length, 256 * (length + 1), 255 * length]
    }

    /// Those that are run.
    pub fn run(&self) -> [u64; 3] {
        let [deletions, insertions, substitutions] = self.whole();
        [deletions, insertions.div_ceil(self.stride), substitutions.div_ceil(self.stride)]
    }

    pub fn count(&self) -> u64 {
        self.run().iter().sum()
    }

    /// The text with the edit of an index below the count.
    pub fn case(&self, index: u64) -> TextCase {
        let [deletions, insertions, _] = self.run();
        let mut text = self.text.to_vec();
        let number = if index < deletions {
            text.remove(index as usize);
            0
        } else if index < deletions + insertions {
            let edit = (index - deletions) * self.stride;
            text.insert((edit / 256) as usize, (edit % 256) as u8);
            1
        } else {
            let edit = (index - deletions - insertions) * self.stride;
            let byte = &mut text[(edit / 255) as usize];
            *byte = byte.wrapping_add(1 + (edit % 255) as u8);
            2
        };
        let mut sorts = of_a_check(self.text, &text);
        sorts.push((EDIT, number));
        TextCase { text, sorts }
    }
}

/// What becomes of a text near one with a check, by the line of that.
fn of_a_check(given: &[u8], text: &[u8]) -> Vec<Sort> {
    let mut lines = (1..).zip(given.split(|byte| *byte == b'\n'));
    let Some((line, _)) = lines.find(|(_, line)| line.starts_with(b"buddy=")) else {
        return Vec::new();
    };
    let outcome = decide(text);
    let other = match (&outcome, decide(given)) {
        (Ok((call, analysis)), Ok(given)) => call.buddy != given.0.buddy && *analysis != given.1,
        _ => false,
    };
    let refused = |number, place| outcome.as_ref().err() == Some(&Refusal::new(number, place));
    named(OF_A_CHECK, [other, refused(6, 6), refused(9, line)])
}
