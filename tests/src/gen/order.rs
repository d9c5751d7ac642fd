//! Entries moved about between head and end: an image, and one of the same entries in another order, the members of an
//! exclusion in another order too. Nothing is added and nothing left out.

use super::policy::Draft;
use super::Rng;
use crate::words;
use std::cmp::Reverse;

/// An entry with all of its words as it stands in the one image; its rank in the other and its words there.
#[derive(Clone, Debug)]
pub struct Entry {
    pub words: Vec<u32>,
    pub rank: usize,
    pub moved: Vec<u32>,
}

/// Two images of the same entries. Each stays so where the same entries are dropped from both.
#[derive(Clone, Debug)]
pub struct Moved {
    pub head: u32,
    pub entries: Vec<Entry>,
}

/// The ways in which entries are moved about.
#[derive(Clone, Copy, Debug, PartialEq, Eq)]
pub enum Way {
    /// Entries and members in any order.
    Any,
    /// Two neighbours exchanged.
    Neighbours,
    /// One entry moved to any place.
    One,
    /// The members of one exclusion in any order, all else as it was.
    Members,
    /// Entries and members from the last to the first.
    Reversed,
    /// The highest kinds of entries first, each kind in its order.
    Kinds,
}

pub const WAYS: [Way; 6] = [Way::Any, Way::Neighbours, Way::One, Way::Members, Way::Reversed, Way::Kinds];

impl Moved {
    /// The policy's image, and the other one.
    pub fn images(&self) -> [Vec<u8>; 2] {
        let mut ranked: Vec<&Entry> = self.entries.iter().collect();
        ranked.sort_by_key(|entry| entry.rank);
        let image = |entries: Vec<&Vec<u32>>| {
            let list = [self.head].into_iter().chain(entries.into_iter().flatten().copied());
            words::bytes(&words::closed(list.collect()))
        };
        [image(self.entries.iter().map(|entry| &entry.words).collect()), image(ranked.iter().map(|entry| &entry.moved).collect())]
    }

    /// Some entry of this kind stands elsewhere among the entries.
    pub fn moves(&self, kind: u32) -> bool {
        self.entries.iter().enumerate().any(|(place, entry)| entry.words[0] >> 28 == kind && entry.rank != place)
    }

    /// The members of some exclusion stand in another order.
    pub fn moves_members(&self) -> bool {
        self.entries.iter().any(|entry| entry.words != entry.moved)
    }
}

/// A policy's image and the same entries moved about in this way.
pub fn moved(rng: &mut Rng, draft: &Draft, way: Way) -> Moved {
    let mut order: Vec<usize> = (0..draft.entries.len()).collect();
    let mut entries = draft.entries.clone();
    match way {
        Way::Any => {
            rng.shuffle(&mut order);
            entries.iter_mut().for_each(|entry| rng.shuffle(&mut entry[1..]));
        }
        Way::Neighbours if order.len() > 1 => {
            let place = rng.place(order.len() - 1);
            order.swap(place, place + 1);
        }
        Way::One if order.len() > 1 => {
            let entry = order.remove(rng.place(order.len()));
            order.insert(rng.place(order.len() + 1), entry);
        }
        Way::Members => {
            let exclusions: Vec<usize> = order.iter().copied().filter(|entry| entries[*entry].len() > 1).collect();
            if !exclusions.is_empty() {
                let one = rng.pick(&exclusions);
                rng.shuffle(&mut entries[one][1..]);
            }
        }
        Way::Reversed => {
            order.reverse();
            entries.iter_mut().for_each(|entry| entry[1..].reverse());
        }
        Way::Kinds => order.sort_by_key(|entry| Reverse(draft.entries[*entry][0] >> 28)),
        Way::Neighbours | Way::One => {}
    }
    let mut ranks = vec![0; order.len()];
    order.iter().enumerate().for_each(|(rank, entry)| ranks[*entry] = rank);
    let pairs = draft.entries.iter().zip(ranks).zip(entries);
    Moved {
        head: words::head(draft.users, draft.roles, draft.permissions),
        entries: pairs.map(|((words, rank), moved)| Entry { words: words.clone(), rank, moved }).collect(),
    }
}
