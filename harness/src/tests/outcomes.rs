//! Kinds 15 to 17: reading, refusal 18, rules 18 to 24, and what stays as it was.
mod reading;
mod rules;
mod runs;

use crate::sheets::{Draft, Method, Step};
use crate::tree::Tree;

/// A first method and a primitive that can fail, and a call of the latter from point 1
/// to point 2 or, if it fails, to point 3. The method goes from point 0 to point 0 or,
/// if it fails, to point 4. All conditions hold every word.
fn failing() -> Draft {
    let mut draft = Draft::default();
    for _ in 0..5 {
        draft.point(&Tree::any(), &Tree::any(), &Tree::any());
    }
    draft.methods = vec![Method::new(&[0; 5], &[0, 0, 4]), Method::new(&[0; 5], &[])];
    draft.steps.push(Step::Failing(1, 2, 3, 1));
    draft
}
