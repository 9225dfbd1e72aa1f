//! Recorded and example jobs through the safe functions.

mod common;

use std::collections::HashSet;

use common::{Known, known};
use job::{answer::Answer, limits::KITLIST_LISTING};
use kit::{Kit, Limits, Line, Listing, Refusal};

/// As `kitlist` prints it.
fn printed(result: Result<Listing, Refusal>) -> String {
    match result {
        Ok(listing) => listing.to_string(),
        Err(refusal) => Answer::from(refusal).to_string(),
    }
}

fn listings() -> impl Iterator<Item = (String, Listing)> {
    known().into_iter().filter_map(|Known { name, request, .. }| {
        let listing =
            Kit::with_listing_area(request.listing_area).run(&request.job, &request.limits);
        Some((name, listing.ok()?))
    })
}

#[test]
fn jobs_are_answered_as_recorded() {
    for Known { name, request, printed: expected } in known() {
        let mut kit = Kit::with_listing_area(request.listing_area);
        assert_eq!(printed(kit.run(&request.job, &request.limits)), expected, "{name}");
    }
}

/// One kit for jobs of all limits, twice over; each thread's own kit in between.
#[test]
fn areas_are_lent_again() {
    let mut kit = Kit::with_listing_area(KITLIST_LISTING);
    let jobs: Vec<Known> =
        known().into_iter().filter(|known| known.request.listing_area == KITLIST_LISTING).collect();
    for Known { name, request, printed: expected } in jobs.iter().chain(&jobs) {
        assert_eq!(printed(kit.run(&request.job, &request.limits)), *expected, "{name}");
        let checked = kit.check(&request.job, &request.limits);
        assert_eq!(checked, kit::check(&request.job, &request.limits), "{name}");
        if !expected.starts_with("refused") {
            assert_eq!(checked, Ok(()), "{name}");
            assert_eq!(printed(kit::run(&request.job, &request.limits)), *expected, "{name}");
        }
    }
}

#[test]
fn lines_print_back() {
    let mut kinds = HashSet::new();
    for (name, listing) in listings() {
        let lines: String = listing.lines().map(|line| format!("{line}\n")).collect();
        assert_eq!(lines, listing.as_str(), "{name}");
        kinds.extend(lines.lines().map(|line| line.as_bytes()[0]));
    }
    assert_eq!(kinds.len(), 8);
}

#[test]
fn each_kind_has_its_lines() {
    for (name, listing) in listings() {
        let kinds: [Vec<Line>; 8] = [
            listing.variables().map(Line::Variable).collect(),
            listing.clauses().map(Line::Clause).collect(),
            listing.opened_owners().map(Line::OpenedOwner).collect(),
            listing.opened_names().map(Line::OpenedName).collect(),
            listing.conflicts().map(Line::Conflict).collect(),
            listing.assertions().map(Line::Assertion).collect(),
            listing.decisions().map(Line::Decision).collect(),
            listing.waiting().map(Line::Waiting).collect(),
        ];
        assert_eq!(kinds[0].len(), listing.variable_count(), "{name}");
        assert_eq!(kinds[1].len(), listing.clause_count(), "{name}");
        assert!(kinds.into_iter().flatten().eq(listing.lines()), "{name}");
    }
}

#[test]
fn limits_that_are_not_allowed_are_refused() {
    for value in [0, u32::MAX] {
        for at in 0..4 {
            let mut limits = Limits::KITLIST.to_array();
            limits[at] = value;
            let limits = Limits::from_array(limits);
            let refusal = Refusal { number: 7, place: 0 };
            assert_eq!(kit::check(&[], &limits), Err(refusal));
            assert_eq!(kit::run(&[], &limits), Err(refusal));
        }
    }
}

#[test]
fn each_refusal_has_its_sentence() {
    let sentences = (1..=11).map(|number| Refusal { number, place: 0 }.sentence());
    assert_eq!(sentences.collect::<HashSet<_>>().len(), 11);
}
