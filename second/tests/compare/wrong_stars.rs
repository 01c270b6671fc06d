//! Libraries that take stars in a row wrongly: the edges find each mistake in every call that it can
//! change.

use std::sync::OnceLock;

use second::compare::call::{Call, Callee, Library};
use second::compare::edge_requests::{requests, short_texts};
use second::compare::job_edges::jobs;
use second::compare::request::Request;
use second::job::split_job;

use crate::rule_verdict::{verdict, Wrong};
use crate::wrong::{check_verdicts, length, rules_of, with_verdict, PLAIN};

/// The calls that refuse a star after a star in a plain rule.
const REFUSING: [Callee; 3] = [Callee::ReadRule, Callee::Judge, Callee::RunJob];

/// The call that rewrites.
const REWRITER: [Callee; 1] = [Callee::RewriteRule];

/// The edges with plain rules in which stars or complements follow each other, directly or behind a
/// parenthesis, but for long ones.
fn edges() -> &'static [Request] {
    static EDGES: OnceLock<Vec<Request>> = OnceLock::new();
    let is_about_stars = |request: &Request| {
        let rules = rules_of(request);
        let pairs = [&b"**"[..], b"*)*", b"!!"];
        let has_pair = pairs
            .iter()
            .any(|pair| rules.windows(pair.len()).any(|part| part == *pair));
        length(request) < 120 && has_pair
    };
    EDGES.get_or_init(|| {
        let plain = |request: &Request| PLAIN.contains(&request.asked.callee());
        let requests = requests().into_iter().filter(plain);
        requests.filter(is_about_stars).collect()
    })
}

/// The calls in which the edges find a difference to a library.
fn found(library: &Library) -> Vec<Callee> {
    crate::wrong::found(edges(), library)
}

#[test]
fn the_verdicts_are_those_of_the_second_program() {
    check_verdicts(edges());
    let short: Vec<Request> = short_texts().collect();
    check_verdicts(&short);
}

/// The mistakes that change a verdict, with the calls that they change.
const WRONGS: [(Wrong, &[Callee]); 15] = [
    (Wrong::PlaceOfStarBefore, &REFUSING),
    (Wrong::Before(21, 4), &REFUSING),
    (Wrong::Before(21, 20), &REFUSING),
    (Wrong::Before(21, 3), &REFUSING),
    (Wrong::Before(5, 21), &REFUSING),
    // Then 6 comes before 5, too.
    (Wrong::Before(6, 21), &PLAIN),
    (Wrong::RepeatedTaken, &REFUSING),
    (Wrong::LastRepeated, &REFUSING),
    (Wrong::TwoTaken, &REFUSING),
    (Wrong::AtEndAlone, &REFUSING),
    (Wrong::ThroughParentheses, &REFUSING),
    (Wrong::RepeatedComplements, &REFUSING),
    (Wrong::BrokenInRewritten, &PLAIN),
    (Wrong::NodesByRuns, &REWRITER),
    (Wrong::RewriterRefuses, &REWRITER),
];

#[test]
fn the_edges_find_a_library_with_wrong_verdicts_on_stars() {
    for (wrong, callees) in WRONGS {
        let library = |_: &str, call: Call| with_verdict(call, wrong);
        assert_eq!(found(&library), callees, "{wrong:?}");
    }
    let library = |_: &str, call: Call| with_verdict(call, Wrong::Nothing);
    assert_eq!(found(&library), []);
}

#[test]
fn the_edges_of_jobs_alone_find_wrong_stars() {
    let jobs = jobs();
    let rules = || jobs.iter().filter_map(|job| split_job(job).ok());
    for (wrong, callees) in WRONGS {
        let differs = |rule: &[u8]| verdict(rule, wrong) != verdict(rule, Wrong::Nothing);
        let is_found = rules().any(|(rule, _)| differs(rule));
        assert_eq!(is_found, callees.contains(&Callee::RunJob), "{wrong:?}");
    }
}
