//! Words to try on a sheet's conditions.
use crate::instrument::FOUR;
use crate::naive;
use crate::random::Random;
use crate::tree::Tree;

/// A condition's number and a word.
pub struct Test {
    pub condition: usize,
    pub word: Vec<u8>,
}

/// What a word is made of.
#[derive(Clone, Copy)]
enum Sort {
    /// A word of the condition.
    Held,
    /// Any events.
    Any,
    /// A beginning of a word of the condition, mostly one that it does not hold.
    Begun,
    /// A word of the condition with one of its last events changed, or one more.
    Late,
    /// A word of the condition if its leaves of the set 0 held events, or such as above.
    Through,
}

/// The sorts of a sheet's words.
const SORTS: [Sort; 5] = [Sort::Held, Sort::Any, Sort::Begun, Sort::Late, Sort::Through];

/// A few words for a sheet: words of a condition of it, beginnings of such, words that go
/// wrong late, and others.
pub fn words(sheet: &[u8], random: &mut Random) -> Vec<Test> {
    let conditions = naive::read_sheet(&FOUR, sheet).map_or(vec![], |sheet| sheet.conditions);
    if conditions.is_empty() {
        let word = some_events(random);
        return vec![Test { condition: random.below(3), word }];
    }
    let dead: Vec<usize> = (0..conditions.len()).filter(|&i| dead_leaf(&conditions[i])).collect();
    SORTS.map(|sort| one(&conditions, &dead, random, sort)).into()
}

/// Whether a tree has a leaf with the set 0.
fn dead_leaf(tree: &Tree) -> bool {
    match tree {
        Tree::Leaf(set) => *set == 0,
        Tree::Empty => false,
        Tree::Join(a, b) | Tree::Either(a, b) => dead_leaf(a) || dead_leaf(b),
        Tree::Star(a) => dead_leaf(a),
    }
}

/// A word for one of the conditions, mostly for one with a dead leaf if there is any.
fn one(conditions: &[Tree], dead: &[usize], random: &mut Random, sort: Sort) -> Test {
    let mut condition = match dead.is_empty() || random.once_in(3) {
        true => random.below(conditions.len()),
        false => dead[random.below(dead.len())],
    };
    let mut word = of_sort(&conditions[condition], random, sort);
    if random.once_in(25) {
        condition = conditions.len() + random.below(300);
    }
    if random.once_in(25) {
        let at = random.below(word.len() + 1);
        word.insert(at, no_event(random));
    }
    if random.once_in(100) {
        let length = 4_095 + random.below(3);
        word = word.iter().copied().cycle().take(length).collect();
        if random.once_in(2) {
            change_late(&mut word, random);
        }
        if random.once_in(4) {
            condition = conditions.len();
        }
    }
    Test { condition, word }
}

/// A word of a sort; any events if the condition holds none.
fn of_sort(tree: &Tree, random: &mut Random, sort: Sort) -> Vec<u8> {
    let mut word = vec![];
    let found = match sort {
        Sort::Any => false,
        Sort::Held | Sort::Begun | Sort::Late => repeated_word(tree, random, &mut word),
        Sort::Through => {
            let filled = tree.with_sets(&|set| if set == 0 { 7 } else { set });
            repeated_word(&filled, random, &mut word)
        }
    };
    if !found {
        return some_events(random);
    }
    match (sort, random.below(3)) {
        (Sort::Begun, _) | (Sort::Through, 0) => cut(tree, &mut word, random),
        (Sort::Late, _) | (Sort::Through, 1) => change_late(&mut word, random),
        _ => {}
    }
    word
}

/// A beginning of the word, which the tree does not hold if a few tries find such.
fn cut(tree: &Tree, word: &mut Vec<u8>, random: &mut Random) {
    for _ in 0..3 {
        let length = 1 + random.below(word.len().saturating_sub(1));
        let length = length.min(word.len());
        if !naive::holds(tree, &word[..length]) {
            return word.truncate(length);
        }
    }
}

/// Another event for one of the last four, or one more.
fn change_late(word: &mut Vec<u8>, random: &mut Random) {
    let event = if random.once_in(12) { 63 } else { [0, 1, 2, 31][random.below(4)] };
    match random.below(5) {
        back if back < word.len() && back < 4 => {
            let at = word.len() - 1 - back;
            word[at] = event;
        }
        _ => word.push(event),
    }
}

/// A word of the tree; of a star, now and then, a longer one.
fn repeated_word(tree: &Tree, random: &mut Random, out: &mut Vec<u8>) -> bool {
    let times = match tree {
        Tree::Star(_) if random.once_in(4) => random.below(40),
        _ => 1,
    };
    (0..times.max(1)).all(|_| tree.word(random, out))
}

/// An event that not every instrument has, or none has.
fn no_event(random: &mut Random) -> u8 {
    let number = match random.below(3) {
        0 => random.below(32),
        1 => 32 + random.below(2),
        _ => random.below(224),
    };
    32 + number as u8
}

fn some_events(random: &mut Random) -> Vec<u8> {
    let length = if random.once_in(10) { random.below(200) } else { random.below(7) };
    let last = if random.once_in(3) { 63 } else { 31 };
    let event = |random: &mut Random| match random.below(8) {
        0 => last,
        1 => random.below(last as usize + 1) as u8,
        _ => random.below(3) as u8,
    };
    (0..length).map(|_| event(random)).collect()
}
