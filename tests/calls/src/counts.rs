//! How often each kind was told each code.
use crate::code::{BAD_INPUT, CODES, OK, UNSOUND};
use crate::kind::{self, KINDS};

/// Row 0 is for numbers that are no kind.
#[derive(Clone, Debug, PartialEq, Eq)]
pub struct Counts([[u64; CODES]; KINDS.len() + 1]);

/// Whether the rules let a kind, or row 0, be told a code; 2 comes from damaged stores.
fn is_possible(row: usize, code: u64) -> bool {
    match row {
        0 => code == UNSOUND || code == BAD_INPUT,
        _ => code == UNSOUND || KINDS[row - 1].codes().any(|c| c == code),
    }
}

fn name(row: usize) -> &'static str {
    if row == 0 {
        "no kind"
    } else {
        KINDS[row - 1].word
    }
}

fn row_of(kind: u64) -> usize {
    kind::find(kind).map_or(0, |_| kind as usize)
}

impl Default for Counts {
    fn default() -> Self {
        Counts([[0; CODES]; KINDS.len() + 1])
    }
}

impl Counts {
    /// Ends the test where the rules have no such answer.
    pub fn add(&mut self, kind: u64, code: u64) {
        let row = row_of(kind);
        assert!(is_possible(row, code), "the rules have no such answer: {} {code}", name(row));
        self.0[row][code as usize] += 1;
    }

    pub fn add_all(&mut self, other: &Counts) {
        let cells = self.0.iter_mut().flatten().zip(other.0.iter().flatten());
        cells.for_each(|(mine, theirs)| *mine += theirs);
    }

    /// How often a kind was told a code.
    pub fn of(&self, kind: u64, code: u64) -> u64 {
        self.0[row_of(kind)][code as usize]
    }

    pub fn total(&self) -> u64 {
        self.0.iter().flatten().sum()
    }

    /// The kinds that were accepted less often.
    pub fn accepted_less(&self, often: u64) -> Vec<&'static str> {
        kind::all().filter(|&kind| self.of(kind, OK) < often).map(|kind| kind::of(kind).word).collect()
    }

    /// The codes that no event was told, but for such as are rare.
    pub fn codes_missing(&self, rare: &[u64]) -> Vec<u64> {
        let is_missing = |&code: &u64| !rare.contains(&code) && self.0.iter().all(|row| row[code as usize] == 0);
        (0..CODES as u64).filter(is_missing).collect()
    }

    /// What the rules let happen and did not happen.
    pub fn missing(&self) -> Vec<String> {
        let cells = (0..self.0.len()).flat_map(|row| (0..CODES).map(move |code| (row, code)));
        let missing = cells.filter(|&(row, code)| is_possible(row, code as u64) && self.0[row][code] == 0);
        missing.map(|(row, code)| format!("{} {code}", name(row))).collect()
    }

    /// A row for each kind, a column for each code; a dot where the rules have no such answer.
    pub fn table(&self) -> String {
        let codes: String = (0..CODES).map(|code| format!("{code:>8}")).collect();
        let mut text = format!("{:<8}{codes}\n", "kind");
        for (row, counts) in self.0.iter().enumerate() {
            let cell = |(code, count): (usize, &u64)| if is_possible(row, code as u64) { format!("{count:>8}") } else { format!("{:>8}", ".") };
            let cells: String = counts.iter().enumerate().map(cell).collect();
            text += &format!("{:<8}{cells}\n", name(row));
        }
        text
    }
}
