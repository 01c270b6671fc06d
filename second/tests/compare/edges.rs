//! The edges as requests: every case of the streams that has a call, and no other.

use second::compare::call::NODES;
use second::compare::edge_requests::requests;
use second::compare::request::Asked;
use second::edges;
use second::stream::Case;

#[test]
fn numbers_have_no_call() {
    let numbers = Case::Numbers { first: 8, count: 3 };
    assert_eq!(Asked::case(numbers, NODES), None);
    let rule = Case::Rule(b"a".to_vec());
    assert!(Asked::case(rule, NODES).is_some());
}

#[test]
fn every_known_judge_call_is_asked() {
    let known = edges::named("known").unwrap();
    let mut calls = 0;
    let requests = requests();
    for case in known {
        let Some(asked) = Asked::case(case, NODES) else {
            continue;
        };
        assert!(requests.iter().any(|request| request.asked == asked));
        calls += 1;
    }
    assert_eq!(calls, 64);
}
