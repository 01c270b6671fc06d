//! The rules that are measured, each with its word and the reason why it is here.
//!
//! "Worst" rules were searched for: of the forms that were tried in a group, the one that takes the tuned or the proved judge longest.

use crate::words::{all_a, drawn, side_entrance, Word};

/// What a rule is measured for.
#[derive(Clone, Copy, PartialEq)]
pub enum Group {
    /// The slowest that was found of its kind.
    Worst,
    /// Two rules side by side, of which the second one is not to take much longer than the first one.
    Sets,
    /// What the facility manager of a side entrance asks.
    Everyday,
}

pub struct Rule {
    pub name: &'static str,
    pub group: Group,
    pub text: String,
    pub word: Word,
}

/// All rules, the worst ones first.
pub fn rules() -> Vec<Rule> {
    [
        without_specials(),
        complements(),
        intersections(),
        sets(),
        everyday(),
    ]
    .into_iter()
    .flatten()
    .collect()
}

fn without_specials() -> Vec<Rule> {
    let starred_unions = format!("(({}a*)*)*", "(a|a)*".repeat(12));
    let a_and_13_more = format!("(a|b)*a{}", "(a|b)".repeat(13));
    vec![
        // The longest chains of free moves, from one letter.
        worst("deep stars", format!("{}a{}", "(".repeat(62), "*)".repeat(62) + "*"), all_a),
        // Every letter leads to every other: the largest sets of states.
        worst("stars in a row", format!("(({})*)*", "a*".repeat(21)), all_a),
        // The most letters that 64 nodes can hold, all of them taken by every event.
        worst("union", format!("({})*", ["a"; 32].join("|")), all_a),
        // As many letters nearly, with a star around each pair.
        worst("starred unions", starred_unions, all_a),
        // Sets of states that hardly repeat: a deterministic automaton has 16,384 of them.
        worst("a, and 13 more", a_and_13_more, drawn),
    ]
}

fn complements() -> Vec<Rule> {
    let grown = format!("(({}!(a*b)aa*a*)*)*", "!(a*b)a".repeat(6));
    let between = format!("{}!0", "!0a".repeat(6));
    let between_grown = format!("(({})*)*", "!0a*a*".repeat(7));
    let nested = (0..6).fold("!(a*aa*)".to_string(), |inner, _| {
        format!("!(a*a*a{inner})")
    });
    let starred = (0..7).fold("b".to_string(), |inner, _| format!("!((a*a{inner}a)*)"));
    vec![
        // Seven special nodes that are all entered at every event, and little else.
        worst("complements", "!a!b!a!b!a!b!a".to_string(), drawn),
        // The same with walks inside that never end early, and a star around.
        worst("complements, grown", grown, all_a),
        // The common way to say "somewhere later", six times.
        worst("anything between", between, all_a),
        // The same with stars, at 64 nodes.
        worst("anything between, grown", between_grown, all_a),
        // Blocks that need one another, seven deep.
        worst("nested complements", nested, all_a),
        // The same with a star around each, so that each is entered at every event.
        worst("nested complements, starred", starred, all_a),
        // The shortest rule that lists every span.
        worst("anything", "!0".to_string(), all_a),
    ]
}

fn intersections() -> Vec<Rule> {
    let three = "(a*&a*)".repeat(3);
    let in_a_row = format!("((a*&a*)(a*&b*){three}((a*)*&a*)(a*&a*)a*0*aa*a*a*)*");
    let inner = (0..6).fold("a*".to_string(), |inner, _| format!("(({inner}&a*)aa*)*"));
    let example = "((ttt)*t&(tttt)*ttt)bt*".replace('t', "(a|b)");
    vec![
        // Many stars that have to agree.
        worst("intersections", ["a*a*a*"; 7].join("&"), all_a),
        // Found by random changes: the slowest for the proved judge.
        worst("intersections in a row", in_a_row, all_a),
        // Found by random changes: the slowest for the tuned judge.
        worst("nested intersections", format!("(({inner}&a*)a)*"), all_a),
        // Document 004, Example 1, with t standing for (a|b).
        worst("Example 1 of 004", example, drawn),
    ]
}

fn sets() -> Vec<Rule> {
    let sets = |name, node: &str| Rule {
        name,
        group: Group::Sets,
        text: node.repeat(32),
        word: all_a,
    };
    vec![
        // As many letters in a row as 64 nodes can hold, each taken by the event that it comes to.
        sets("32 letters", "a"),
        // The same walks, so that the difference is what it takes to read sets and to enter all 52 letters of each.
        sets("32 dots", "."),
    ]
}

fn worst(name: &'static str, text: String, word: Word) -> Rule {
    Rule {
        name,
        group: Group::Worst,
        text,
        word,
    }
}

fn everyday() -> Vec<Rule> {
    let everyday = |name, text: &str| Rule {
        name,
        group: Group::Everyday,
        text: text.to_string(),
        word: side_entrance,
    };
    vec![
        // Two minutes or more between an opening and its closing.
        everyday("held open", "o(b|p|t)*t(b|p|t)*t(b|p|t)*c"),
        // The same as a site writes it since there are sets, with 16 nodes instead of 28.
        everyday("held open, sets", "o[bpt]*t[bpt]*t[bpt]*c"),
        // One badge, and two people before the door closes.
        everyday("tailgating", "bot*pt*p(p|t)*c"),
        // An opening after a closing, with no badge between.
        everyday("no badge", "c(p|t)*o"),
        // A badge, and then anything but an opening.
        everyday("badge unused", "b(b|p|t|c)"),
        // An opening that is not closed before the next badge.
        everyday("not closed", "o(p|t)*b"),
    ]
}
