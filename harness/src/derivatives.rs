//! Which word of one condition another lacks, and how far a word goes, by partial
//! derivatives (Antimirov).
#[cfg(test)]
use crate::answer::Answer;
use crate::naive::holds_empty;
use crate::tree::Tree;
#[cfg(test)]
use std::collections::HashMap;
use std::collections::{BTreeSet, HashSet, VecDeque};

/// Pairs looked at before giving up.
const MOST: usize = 50_000;

type Trees = BTreeSet<Tree>;

/// What may follow the event in the words of a tree, each way as a tree.
fn partial(tree: &Tree, event: u8) -> Trees {
    match tree {
        Tree::Leaf(set) if set >> event & 1 == 1 => Trees::from([Tree::Empty]),
        Tree::Leaf(_) | Tree::Empty => Trees::new(),
        Tree::Join(a, b) => {
            let mut ways = before(partial(a, event), b);
            if holds_empty(a) {
                ways.extend(partial(b, event));
            }
            ways
        }
        Tree::Either(a, b) => &partial(a, event) | &partial(b, event),
        Tree::Star(a) => before(partial(a, event), tree),
    }
}

/// Each of the trees, followed by the rest.
fn before(trees: Trees, rest: &Tree) -> Trees {
    let joined = |tree| match tree {
        Tree::Empty => rest.clone(),
        tree => tree.join(rest.clone()),
    };
    trees.into_iter().map(joined).collect()
}

fn step(trees: &Trees, event: u8) -> Trees {
    trees.iter().flat_map(|tree| partial(tree, event)).collect()
}

fn sets(tree: &Tree, found: &mut BTreeSet<u64>) {
    match tree {
        Tree::Leaf(set) => {
            found.insert(*set);
        }
        Tree::Empty => {}
        Tree::Join(a, b) | Tree::Either(a, b) => {
            sets(a, found);
            sets(b, found);
        }
        Tree::Star(a) => sets(a, found),
    }
}

/// One event of each class that no leaf tells apart.
fn events(left: &Tree, rights: &Trees) -> Vec<u8> {
    let mut found = BTreeSet::new();
    sets(left, &mut found);
    rights.iter().for_each(|tree| sets(tree, &mut found));
    let mut classes = HashSet::new();
    let class = |event: &u8| found.iter().map(|set| set >> event & 1).collect::<Vec<u64>>();
    (0..64).filter(|event| classes.insert(class(event))).collect()
}

/// A shortest word of the left that, behind some events, is not in the right;
/// an error if that was not found out.
pub fn missing_word(left: &Tree, right: &Tree, since: &[u8]) -> Result<Option<Vec<u8>>, ()> {
    let rights = since.iter().fold(Trees::from([right.clone()]), |all, &event| step(&all, event));
    let events = events(left, &rights);
    let mut seen = HashSet::from([(left.clone(), rights.clone())]);
    let mut todo = VecDeque::from([(left.clone(), rights, vec![])]);
    while let Some((tree, others, word)) = todo.pop_front() {
        if holds_empty(&tree) && !others.iter().any(holds_empty) {
            return Ok(Some(word));
        }
        for &event in &events {
            let ways = partial(&tree, event);
            let after = if ways.is_empty() { Trees::new() } else { step(&others, event) };
            for way in ways {
                if seen.insert((way.clone(), after.clone())) {
                    todo.push_back((way, after.clone(), [&word[..], &[event]].concat()));
                }
            }
        }
        if seen.len() > MOST {
            return Err(());
        }
    }
    Ok(None)
}

/// Whether a tree holds a word and, if not, the length of the longest beginning after
/// which there is a way on that holds a word.
#[cfg(test)]
pub fn word_test(tree: &Tree, word: &[u8]) -> Answer {
    let mut known = HashMap::new();
    let mut finishes = |way: &Tree| *known.entry(way.clone()).or_insert_with(|| some_word(way));
    let mut ways = Trees::from([tree.clone()]);
    for (length, &event) in word.iter().enumerate() {
        ways = step(&ways, event);
        if !ways.iter().any(&mut finishes) {
            return Answer::No(length);
        }
    }
    match ways.iter().any(holds_empty) {
        true => Answer::Yes,
        false => Answer::No(word.len()),
    }
}

/// Whether a tree holds a word: one of its derivatives by any events holds the empty one.
#[cfg(test)]
fn some_word(tree: &Tree) -> bool {
    let events = events(tree, &Trees::new());
    let mut seen = HashSet::from([tree.clone()]);
    let mut todo = VecDeque::from([tree.clone()]);
    while let Some(tree) = todo.pop_front() {
        if holds_empty(&tree) {
            return true;
        }
        let ways = events.iter().flat_map(|&event| partial(&tree, event));
        todo.extend(ways.filter(|way| seen.insert(way.clone())));
    }
    false
}
