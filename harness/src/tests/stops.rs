//! Kinds 18 and 19: reading, refusals 19 and 20, rules 25 and 26, and runs that stop.
mod reading;
mod rules;
mod runs;

use crate::sheets::{Draft, Method, Step};
use crate::tree::Tree;

/// A first method and another with body, of so many outcomes, a call of the latter from
/// point 1 to point 2 or, if it fails, to point 3, and a stop at point 4. The other
/// method goes from point 5 to point 6, or 7 if it fails; it raises nothing, since no
/// word is its own there. All other conditions hold every word.
fn stopping(outcomes: usize) -> Draft {
    let mut draft = Draft { new_edition: true, ..Draft::default() };
    let any = Tree::any();
    for _ in 0..6 {
        draft.point(&any, &any, &any);
    }
    for _ in 0..2 {
        draft.point(&any, &Tree::Leaf(0), &any);
    }
    let none = draft.condition(&Tree::Leaf(0));
    draft.methods.push(Method::new(&[0; 3], &[0, 0]));
    draft.methods.push(match outcomes {
        1 => Method::new(&[0, none, 0], &[5, 6]),
        _ => Method::new(&[0, none, 0, none, 0], &[5, 6, 7]),
    });
    draft.steps.push(match outcomes {
        1 => Step::Call(1, 2, 1),
        _ => Step::Failing(1, 2, 3, 1),
    });
    draft.steps.push(Step::Stop(4));
    draft
}
