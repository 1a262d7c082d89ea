//! Glushkov's sets by recursion on the tree, as lists of places.
use crate::tree::Tree;

pub struct Side {
    sets: Vec<u64>,
    follow: Vec<Vec<usize>>,
    ends: Vec<bool>,
}

impl Side {
    pub fn new(tree: &Tree) -> Side {
        let mut sets = vec![0];
        leaf_sets(tree, &mut sets);
        let lasts = last(tree, 1);
        let mut follow = vec![first(tree, 1)];
        let mut ends = vec![empty(tree)];
        for place in 1..sets.len() {
            let mut places = following(tree, 1, place);
            places.sort();
            places.dedup();
            follow.push(places);
            ends.push(lasts.contains(&place));
        }
        Side { sets, follow, ends }
    }

    pub fn places(&self) -> usize {
        self.sets.len()
    }

    pub fn ends(&self, place: usize) -> bool {
        self.ends[place]
    }

    /// Followers of a place, ascending.
    pub fn follow(&self, place: usize) -> &[usize] {
        &self.follow[place]
    }

    pub fn leaf_holds(&self, place: usize, event: usize) -> bool {
        self.sets[place] >> event & 1 == 1
    }

    /// All followers of a set of places whose leaf holds an event.
    pub fn step(&self, set: &[usize], event: usize) -> Vec<usize> {
        let mut found = vec![];
        for place in 1..self.places() {
            let follows = set.iter().any(|&k| self.follow[k].contains(&place));
            if follows && self.leaf_holds(place, event) {
                found.push(place);
            }
        }
        found
    }
}

fn leaf_sets(tree: &Tree, sets: &mut Vec<u64>) {
    match tree {
        Tree::Leaf(set) => sets.push(*set),
        Tree::Empty => {}
        Tree::Join(a, b) | Tree::Either(a, b) => {
            leaf_sets(a, sets);
            leaf_sets(b, sets);
        }
        Tree::Star(a) => leaf_sets(a, sets),
    }
}

pub fn empty(tree: &Tree) -> bool {
    match tree {
        Tree::Leaf(_) => false,
        Tree::Empty | Tree::Star(_) => true,
        Tree::Join(a, b) => empty(a) && empty(b),
        Tree::Either(a, b) => empty(a) || empty(b),
    }
}

/// First leaves of a tree whose leaves are numbered from `from`.
fn first(tree: &Tree, from: usize) -> Vec<usize> {
    match tree {
        Tree::Leaf(_) => vec![from],
        Tree::Empty => vec![],
        Tree::Join(a, _) if !empty(a) => first(a, from),
        Tree::Join(a, b) | Tree::Either(a, b) => {
            [first(a, from), first(b, from + a.leaves())].concat()
        }
        Tree::Star(a) => first(a, from),
    }
}

fn last(tree: &Tree, from: usize) -> Vec<usize> {
    match tree {
        Tree::Leaf(_) => vec![from],
        Tree::Empty => vec![],
        Tree::Join(a, b) if !empty(b) => last(b, from + a.leaves()),
        Tree::Join(a, b) | Tree::Either(a, b) => {
            [last(a, from), last(b, from + a.leaves())].concat()
        }
        Tree::Star(a) => last(a, from),
    }
}

/// The leaves that may come right after a leaf.
fn following(tree: &Tree, from: usize, place: usize) -> Vec<usize> {
    match tree {
        Tree::Leaf(_) | Tree::Empty => vec![],
        Tree::Join(a, b) => {
            let second = from + a.leaves();
            if place >= second {
                return following(b, second, place);
            }
            let mut found = following(a, from, place);
            if last(a, from).contains(&place) {
                found.extend(first(b, second));
            }
            found
        }
        Tree::Either(a, b) => {
            let second = from + a.leaves();
            match place >= second {
                true => following(b, second, place),
                false => following(a, from, place),
            }
        }
        Tree::Star(a) => {
            let mut found = following(a, from, place);
            if last(a, from).contains(&place) {
                found.extend(first(a, from));
            }
            found
        }
    }
}
