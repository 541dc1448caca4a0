//! The groups of all parts of a table as one.

use crate::groups::Groups;
use crate::header::Plan;
use crate::keys::GroupKeys;
use crate::workers::each;

/// All groups, in shares that have no key in common.
pub struct Merged<'a, K> {
    shares: Vec<Share<'a, K>>,
}

struct Share<'a, K> {
    groups: Groups<'a, K>,
    /// The rank of each group, which ascends: how many groups of all parts stand before its first one.
    ranks: Vec<usize>,
}

/// Merges the groups of parts of the rows, in the order of the parts, by as many workers.
pub fn merge<'a, K: GroupKeys<'a>>(mut parts: Vec<Groups<'a, K>>, plan: &Plan) -> Merged<'a, K> {
    if parts.len() == 1 {
        let groups = parts.remove(0);
        let ranks = (0..groups.keys.count()).collect();
        return Merged {
            shares: vec![Share { groups, ranks }],
        };
    }
    let shares = each(0..parts.len(), |number| merge_share(&parts, number, plan));
    Merged { shares }
}

fn merge_share<'a, K: GroupKeys<'a>>(
    parts: &[Groups<'a, K>],
    number: usize,
    plan: &Plan,
) -> Share<'a, K> {
    let mut groups: Groups<K> = Groups::new(plan);
    let mut ranks = Vec::new();
    let mut before = 0;
    for part in parts {
        let mut places = Vec::new();
        for place in 0..part.keys.count() {
            if part.keys.share(place, parts.len()) != number {
                continue;
            }
            let own = groups.keys.place_of(&part.keys, place);
            if own == ranks.len() {
                ranks.push(before + place);
            }
            places.push((place, own));
        }
        groups.merge(part, &places);
        before += part.keys.count();
    }
    Share { groups, ranks }
}

impl<'a, K> Merged<'a, K> {
    /// All groups in the order of their first rows, each by a share and its place there.
    pub fn in_order(&self) -> impl Iterator<Item = (&Groups<'a, K>, usize)> {
        let mut next = vec![0; self.shares.len()];
        std::iter::from_fn(move || {
            let shares = self.shares.iter().zip(&next).enumerate();
            let ranks = shares.filter_map(|(number, (share, &place))| {
                share.ranks.get(place).map(|&rank| (rank, number))
            });
            let (_, number) = ranks.min()?;
            let place = next[number];
            next[number] += 1;
            Some((&self.shares[number].groups, place))
        })
    }
}
