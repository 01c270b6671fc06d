//! Lent buffers: every element and every canary counts.

use second::compare::lent::{first_different, shown_around, Dirt, Element, Lent, Side, CANARIES};

const DIRT: [Dirt; 2] = [Dirt::Ones, Dirt::Noise(7)];

/// Where a buffer of three differs if one element of the whole is changed.
fn place_of_change<T: Element>(mut lent: Lent<T>, at: usize, changed: T) -> Option<String> {
    lent.came[at] = changed;
    lent.difference().map(|difference| difference.place)
}

#[test]
fn an_untouched_buffer_does_not_differ() {
    for dirt in DIRT {
        for length in [0, 1, 300] {
            assert_eq!(Lent::<u8>::dirty("bytes", length, dirt).difference(), None);
            assert_eq!(Lent::<u32>::dirty("u32", length, dirt).difference(), None);
            assert_eq!(Lent::<u64>::dirty("u64", length, dirt).difference(), None);
        }
        assert_eq!(Lent::holding("text", b"abc", dirt).difference(), None);
    }
}

#[test]
fn every_changed_element_is_found() {
    for dirt in DIRT {
        for at in 0..3 + 2 * CANARIES {
            let place = place_of_change(Lent::dirty("table", 3, dirt), at, 0u64);
            let expected = match at.checked_sub(CANARIES) {
                None => format!("the canary {} in front of table", CANARIES - at),
                Some(index @ 0..3) => format!("table[{index}], lent with a length of 3"),
                Some(index) => format!(
                    "the canary {} behind table, lent with a length of 3",
                    index - 2
                ),
            };
            assert_eq!(place, Some(expected));
            let bytes = place_of_change(Lent::dirty("out", 3, dirt), at, 0u8);
            let seconds = place_of_change(Lent::dirty("seconds", 3, dirt), at, 0u32);
            assert!(bytes.is_some() && seconds.is_some());
            // What is only read must not change either.
            assert!(place_of_change(Lent::holding("text", b"abc", dirt), at, b'!').is_some());
        }
    }
}

#[test]
fn what_has_to_be_written_is_asked_for() {
    for dirt in DIRT {
        let mut lent = Lent::<u64>::dirty("nodes", 4, dirt);
        lent.side(Side::Second)[1] = 5;
        let difference = lent.difference().unwrap();
        assert_eq!(difference.place, "nodes[1], lent with a length of 4");
        lent.side(Side::Library)[1] = 6;
        assert!(lent.difference().is_some());
        lent.side(Side::Library)[1] = 5;
        assert_eq!(lent.difference(), None);
    }
}

#[test]
fn both_sides_are_lent_the_same() {
    for dirt in DIRT {
        let mut lent = Lent::<u32>::dirty("seconds", 9, dirt);
        assert_eq!(lent.side(Side::Library).len(), 9);
        assert_eq!(lent.side(Side::Library).to_vec(), lent.side(Side::Second));
        let mut lent = Lent::holding("text", b"a|b", dirt);
        assert_eq!(lent.side(Side::Library), b"a|b");
        assert_eq!(lent.side(Side::Second), b"a|b");
    }
}

#[test]
fn dirt_is_nothing_that_a_call_writes() {
    for dirt in DIRT {
        assert!(Lent::<u8>::dirty("out", 500, dirt)
            .came
            .iter()
            .all(|&byte| byte > 127));
        let seconds = Lent::<u32>::dirty("seconds", 500, dirt).came;
        assert!(seconds.iter().all(|&second| second > 89_999));
    }
    let table = |dirt| Lent::<u64>::dirty("table", 500, dirt).came;
    assert!(table(Dirt::Ones).iter().all(|&number| number == u64::MAX));
    assert_eq!(table(Dirt::Noise(1)), table(Dirt::Noise(1)));
    assert_ne!(table(Dirt::Noise(1)), table(Dirt::Noise(2)));
}

#[test]
fn the_first_difference_is_shown_with_a_few_elements_around() {
    assert_eq!(first_different(b"abc", b"abc"), None);
    assert_eq!(first_different(b"abc", b"abd"), Some(2));
    assert_eq!(first_different(b"abc", b"ab"), Some(2));
    assert_eq!(first_different(b"", b"ab"), Some(0));
    let numbers: Vec<u64> = (0..20).collect();
    assert_eq!(
        shown_around(&numbers, 10),
        "[10] in ..[7, 8, 9, 10, 11, 12, 13].."
    );
    assert_eq!(shown_around(&numbers, 0), "[0] in [0, 1, 2, 3]..");
    assert_eq!(shown_around(&numbers, 19), "[19] in ..[16, 17, 18, 19]");
    assert_eq!(shown_around(b"S\t0\n", 4), "the end in \"S\\t0\\n\"");
    assert_eq!(shown_around::<u8>(b"", 0), "the end in \"\"");
}
