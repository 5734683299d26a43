//! The pairs of a view.
use super::store::MOST_PLACES;
use call_tests::store::model::BUCKETS;

pub type Pairs = [[u64; 2]; BUCKETS];

/// The members, ascending by id, and how many slots each has.
struct Loads {
    ids: [u64; MOST_PLACES],
    loads: [usize; MOST_PLACES],
    count: usize,
}

impl Loads {
    fn new(members: &[u64], pairs: &Pairs) -> Self {
        let mut l = Loads { ids: [0; MOST_PLACES], loads: [0; MOST_PLACES], count: members.len() };
        l.ids[..members.len()].copy_from_slice(members);
        pairs.as_flattened().iter().filter(|&&id| id != 0).for_each(|&id| l.loads[l.index(id)] += 1);
        l
    }

    /// Of a member's id.
    fn index(&self, id: u64) -> usize {
        self.ids[..self.count].iter().position(|&i| i == id).unwrap()
    }

    /// The member outside the pair with the fewest slots, the lowest id on a tie.
    fn least(&self, pair: [u64; 2]) -> Option<usize> {
        (0..self.count).filter(|&i| !pair.contains(&self.ids[i])).min_by_key(|&i| self.loads[i])
    }
}

/// From the last ready pairs, for at least two members, ascending by id.
pub fn pairs_of(members: &[u64], last: Pairs) -> Pairs {
    let mut pairs = last.map(|pair| match pair.map(|id| members.contains(&id)) {
        [true, true] => pair,
        [true, false] => [pair[0], 0],
        [false, true] => [pair[1], 0],
        [false, false] => [0, 0],
    });
    let mut loads = Loads::new(members, &pairs);
    fill(&mut pairs, &mut loads);
    walk(&mut pairs, &mut loads, 1);
    walk(&mut pairs, &mut loads, 0);
    pairs
}

fn fill(pairs: &mut Pairs, loads: &mut Loads) {
    for pair in pairs {
        for role in 0..2 {
            if pair[role] == 0 {
                let Some(i) = loads.least(*pair) else { continue };
                pair[role] = loads.ids[i];
                loads.loads[i] += 1;
            }
        }
    }
}

/// A holder with more than its share gives way to one with less.
fn walk(pairs: &mut Pairs, loads: &mut Loads, role: usize) {
    let share = (2 * BUCKETS).div_ceil(loads.count);
    for pair in pairs {
        let holder = loads.index(pair[role]);
        let Some(other) = loads.least(*pair) else { continue };
        if loads.loads[holder] > share && loads.loads[other] < share {
            pair[role] = loads.ids[other];
            loads.loads[holder] -= 1;
            loads.loads[other] += 1;
        }
    }
}
