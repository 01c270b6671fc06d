//! Libraries that rewrite wrongly: the edges find each mistake.

use second::compare::call::{Call, Callee};
use second::compare::edge_requests::requests;
use second::compare::request::Request;

use crate::rule_verdict::{rewriter_verdict, with_single, Wrong};
use crate::wrong::found;

/// How a library rewrites.
struct Rewriter {
    /// Number and place, but for 15.
    verdict: fn(&[u8]) -> (u64, u64),
    /// What becomes of a text.
    made: fn(&[u8]) -> Vec<u8>,
    /// Whether a buffer of such a length has room, given the text and what becomes of it.
    has_room: fn(usize, &[u8], &[u8]) -> bool,
    /// Whether 15 comes before all other numbers.
    room_first: bool,
    /// Writes what has become of a text, which comes last, into the buffer.
    write: fn(&mut [u8], &[u8], &[u8]),
    /// Changes the values of an answer behind its number, given the text.
    values: fn(&mut [u64], &[u8]),
    /// Writes into a buffer that is too short.
    write_short: fn(&mut [u8], &[u8]),
}

/// A rewriter that makes no mistake.
const RIGHT: Rewriter = Rewriter {
    verdict: |text| rewriter_verdict(text, Wrong::Nothing),
    made: with_single,
    has_room: |out, _, made| made.len() <= out,
    room_first: false,
    write: |out, _, made| out[..made.len()].copy_from_slice(made),
    values: |_, _| {},
    write_short: |_, _| {},
};

/// What a library does that rewrites so.
fn with_rewriter(call: Call, rewriter: &Rewriter) -> u64 {
    let Call::RewriteRule { text, out, answer } = call else {
        unreachable!("only rewritings are asked");
    };
    let Some(answer) = answer.get_mut(..5) else {
        return u64::MAX;
    };
    let made = (rewriter.made)(text);
    let verdict = (rewriter.verdict)(text);
    let has_room = (rewriter.has_room)(out.len(), text, &made);
    answer.fill(0);
    if !has_room && (verdict.0 == 0 || rewriter.room_first) {
        (rewriter.write_short)(out, &made);
        answer[0] = 15;
    } else if verdict.0 != 0 {
        (answer[0], answer[1]) = verdict;
    } else {
        (rewriter.write)(out, text, &made);
        answer[4] = made.len() as u64;
    }
    (rewriter.values)(answer, text);
    answer[0]
}

/// A text in which, from its beginning on, each pair of stars has become one.
fn with_pairs_halved(text: &[u8]) -> Vec<u8> {
    let text = String::from_utf8_lossy(text);
    text.replace("**", "*").into_bytes()
}

/// A text in which stars around stars have become one, too.
fn with_nested_stars_lost(text: &[u8]) -> Vec<u8> {
    let text = String::from_utf8_lossy(&with_single(text)).replace("*)*", ")*");
    text.into_bytes()
}

/// A text whose first run of stars alone has become one star.
fn with_first_run_single(text: &[u8]) -> Vec<u8> {
    let pair = text.windows(2).position(|pair| pair == b"**");
    let (before, rest) = text.split_at(pair.map_or(text.len(), |at| at + 1));
    let more = rest.iter().take_while(|&&byte| byte == b'*').count();
    [before, &rest[more..]].concat()
}

/// A text whose last run of stars alone has become one star, if it ends with it.
fn with_last_run_single(text: &[u8]) -> Vec<u8> {
    let mut text = text.to_vec();
    while text.ends_with(b"**") {
        text.pop();
    }
    text
}

/// A text in which each run of complements has become one, too.
fn with_single_complements(text: &[u8]) -> Vec<u8> {
    let mut text = with_single(text);
    text.dedup_by(|next, byte| (*next, *byte) == (b'!', b'!'));
    text
}

/// A text in which any byte that repeats the one before is lost.
fn with_single_bytes(text: &[u8]) -> Vec<u8> {
    let mut text = text.to_vec();
    text.dedup();
    text
}

/// The mistakes of a rewriter.
const REWRITERS: [(&str, Rewriter); 19] = [
    (
        "a run of three is made two",
        Rewriter {
            made: with_pairs_halved,
            ..RIGHT
        },
    ),
    (
        "stars in each other are rewritten",
        Rewriter {
            made: with_nested_stars_lost,
            ..RIGHT
        },
    ),
    (
        "only the first run is rewritten",
        Rewriter {
            made: with_first_run_single,
            ..RIGHT
        },
    ),
    (
        "only a run at the end is rewritten",
        Rewriter {
            made: with_last_run_single,
            ..RIGHT
        },
    ),
    (
        "complements are rewritten",
        Rewriter {
            made: with_single_complements,
            ..RIGHT
        },
    ),
    (
        "all that repeats is rewritten",
        Rewriter {
            made: with_single_bytes,
            ..RIGHT
        },
    ),
    (
        "nothing is rewritten",
        Rewriter {
            made: <[u8]>::to_vec,
            ..RIGHT
        },
    ),
    (
        "the old text stays beyond the new length",
        Rewriter {
            has_room: |out, text, _| text.len() <= out,
            write: |out, text, made| {
                out[..text.len()].copy_from_slice(text);
                out[..made.len()].copy_from_slice(made);
            },
            ..RIGHT
        },
    ),
    (
        "one byte beyond the new length is cleared",
        Rewriter {
            write: |out, _, made| {
                out[..made.len()].copy_from_slice(made);
                if let Some(next) = out.get_mut(made.len()) {
                    *next = 0;
                }
            },
            ..RIGHT
        },
    ),
    (
        "5 is judged on the new text",
        Rewriter {
            verdict: |text| judged_on_new(text, 5),
            ..RIGHT
        },
    ),
    (
        "2 is judged on the new text",
        Rewriter {
            verdict: |text| judged_on_new(text, 2),
            ..RIGHT
        },
    ),
    (
        "20 has its place in the new text",
        Rewriter {
            verdict: |text| judged_on_new(text, 20),
            ..RIGHT
        },
    ),
    (
        "4 has its place in the new text",
        Rewriter {
            verdict: |text| judged_on_new(text, 4),
            ..RIGHT
        },
    ),
    (
        "the buffer has to take the old text",
        Rewriter {
            has_room: |out, text, _| text.len() <= out,
            ..RIGHT
        },
    ),
    (
        "the buffer has to be longer than the new text",
        Rewriter {
            has_room: |out, _, made| made.len() < out,
            ..RIGHT
        },
    ),
    (
        "15 comes first",
        Rewriter {
            room_first: true,
            ..RIGHT
        },
    ),
    (
        "on 15 what has room is written",
        Rewriter {
            write_short: |out, made| out.copy_from_slice(&made[..out.len()]),
            ..RIGHT
        },
    ),
    (
        "n is told on 15",
        Rewriter {
            values: |answer, text| {
                if answer[0] == 15 {
                    answer[4] = with_single(text).len() as u64;
                }
            },
            ..RIGHT
        },
    ),
    (
        "n is the old length",
        Rewriter {
            values: |answer, text| {
                if answer[0] == 0 {
                    answer[4] = text.len() as u64;
                }
            },
            ..RIGHT
        },
    ),
];

/// The verdict on a text, but that on its new text if a number comes.
fn judged_on_new(text: &[u8], number: u64) -> (u64, u64) {
    let right = rewriter_verdict(text, Wrong::Nothing);
    if right.0 == number {
        return rewriter_verdict(&with_single(text), Wrong::Nothing);
    }
    right
}

#[test]
fn the_edges_find_a_library_that_rewrites_wrongly() {
    let is_rewriting = |edge: &Request| edge.asked.callee() == Callee::RewriteRule;
    let edges: Vec<Request> = requests().into_iter().filter(is_rewriting).collect();
    let found = |rewriter: &Rewriter| {
        let library = |_: &str, call: Call| with_rewriter(call, rewriter);
        found(&edges, &library)
    };
    for (name, rewriter) in REWRITERS {
        assert_eq!(found(&rewriter), [Callee::RewriteRule], "{name}");
    }
    assert_eq!(found(&RIGHT), []);
}
