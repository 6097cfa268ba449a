//! A failing case of a form, made small and told.

use super::{check, hex, Case, Form, Program};
use crate::minimise::fewer;
use nekahuiro_player::medium::Medium;
use nekahuiro_player::Form as PlayersForm;
use std::fmt::Write;

/// A failing case, made small and told in words.
pub fn told<F: Form>(program: Program, reference: Program, mut case: Case) -> String {
    let fails = |case: &Case| check::<F>(program, reference, case).is_err();
    let store = case.store.clone();
    let shorter = |events: &[u8]| fails(&Case { store: store.clone(), events: events.to_vec() });
    case.events = fewer(case.events, F::LISTS.event_bytes, &shorter);
    // Pages as in a fresh store, where that fails as well.
    let space = <F::Player as PlayersForm>::Medium::SPACE;
    for (page, fresh) in F::fresh().chunks_exact(space).enumerate() {
        let mut quieter = case.clone();
        quieter.store[page * space..][..space].copy_from_slice(fresh);
        if fails(&quieter) {
            case = quieter;
        }
    }
    match check::<F>(program, reference, &case) {
        Ok(_) => "the failure doesn't come again: the program isn't a function of its input".to_string(),
        Err(fault) => format!("{}, {fault:?}\n{}", F::NAME, text::<F>(program, reference, &case)),
    }
}

fn text<F: Form>(program: Program, reference: Program, case: &Case) -> String {
    let space = <F::Player as PlayersForm>::Medium::SPACE;
    let mut text = String::from("start store, other than fresh:\n");
    for (page, (bytes, fresh)) in case.store.chunks_exact(space).zip(F::fresh().chunks_exact(space)).enumerate() {
        if bytes != fresh {
            let _ = writeln!(text, "  page {page:3} {}", hex::of(bytes));
        }
    }
    let (one, two) = (program.play::<F>(case, 0x5A), reference.play::<F>(case, 0));
    let words = case.events.chunks_exact(F::LISTS.event_bytes);
    for (word, (one, two)) in words.zip(one.told().into_iter().zip(two.told())) {
        let (one, two) = (hex::of(&[one.0, one.1]), hex::of(&[two.0, two.1]));
        let _ = writeln!(text, "{}  {program:?} {one}, {reference:?} {two}", hex::of(word));
    }
    for (page, (one, two)) in one.store.chunks_exact(space).zip(two.store.chunks_exact(space)).enumerate() {
        if one != two {
            let _ = writeln!(text, "end, page {page:3}, {program:?} {}", hex::of(one));
            let _ = writeln!(text, "end, page {page:3}, {reference:?} {}", hex::of(two));
        }
    }
    text
}
