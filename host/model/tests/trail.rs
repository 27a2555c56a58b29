//! Document 02, W13: checking the dispatcher's claim.

use model::{check, file_of, listing, load, trail_of, trailed_step, Refused, Verdict, Why, Word};

/// What the checker says of a term's file, a trail and a final listing.
fn checked(term: &str, trail: &[u8], last: &str) -> Verdict {
    check(&file_of(term), trail, last.as_bytes())
}

/// A no after so many moves, for the reason with this number.
fn no(made: usize, number: u8) -> Verdict {
    let why = [Why::NotPermitted, Why::NothingLeft, Why::OddByte, Why::OtherLayout].into_iter().find(|why| why.number() == number);
    Verdict::No { made, why: why.expect("a reason's number") }
}

/// The worked example of document 01.
const EXAMPLE: &str = "7[enter 9] | 9[exit 7]";

#[test]
fn the_worked_example() {
    let mut cell = load(&file_of(EXAMPLE)).unwrap();
    let order = [0, 1, 0, 1, 0, 0, 1, 1, 0, 0, 0, 0, 1].map(|agent| (agent, 255));
    assert_eq!(trail_of(&mut cell, &order), [0, 2]);
    assert_eq!(listing(&cell), "9[exit 7 | 7[]]");
    assert_eq!(checked(EXAMPLE, &[0, 2], "9[exit 7 | 7[]]"), Verdict::Yes);
    assert_eq!(checked(EXAMPLE, &[], EXAMPLE), Verdict::Yes, "a trail may stop anywhere");
    // at left the move is written, and the listing has it made
    let mut cell = load(&file_of(EXAMPLE)).unwrap();
    assert_eq!(trail_of(&mut cell, &order[..5]), []);
    assert_eq!(checked(EXAMPLE, &[], &listing(&cell)), Verdict::Yes);
    assert_eq!(trail_of(&mut cell, &order[5..6]), [0, 2]);
    assert_eq!((cell.settled(), checked(EXAMPLE, &[0, 2], &listing(&cell))), (false, Verdict::Yes));
}

#[test]
fn each_reason() {
    let end = "9[exit 7 | 7[]]";
    assert_eq!(checked(EXAMPLE, &[1, 255], end), no(0, 1), "the floor has no key for exiting 7");
    assert_eq!(checked(EXAMPLE, &[0, 2, 1, 255], end), no(1, 1));
    assert_eq!(checked(EXAMPLE, &[0, 2, 0, 2], end), no(1, 2), "no action left");
    assert_eq!([2, 63, 64, 255].map(|agent| checked(EXAMPLE, &[0, 2, agent, 2], end)), [no(1, 2); 4], "no such agent");
    assert_eq!(check(&[2, 5, 0, 4], &[5, 255], b"0"), no(0, 2), "loaded without an action");
    assert_eq!([&[0][..], &[0, 2, 0]].map(|trail| checked(EXAMPLE, trail, end)), [no(0, 3), no(1, 3)]);
    assert_eq!(checked(EXAMPLE, &[], end), no(0, 4));
    assert_eq!(checked(EXAMPLE, &[0, 2], EXAMPLE), no(1, 4));
}

#[test]
fn which_is_told_first() {
    let bad = [1, 5, 5, 7, 0, 4];
    for trail in [&[][..], &[0], &[0, 2], &[9, 9, 9]] {
        assert_eq!(check(&bad, trail, b"0"), Verdict::Refused(Refused { number: 5, offset: 0 }));
        assert_eq!(check(&[4, 4], trail, b"0"), Verdict::Refused(Refused { number: 9, offset: 1 }));
    }
    assert_eq!(checked(EXAMPLE, &[9, 9, 0, 9, 9], "0"), no(2, 3), "an odd trail before any of its moves");
    assert_eq!(checked(EXAMPLE, &[0, 9, 9, 9], "0"), no(0, 1), "the first wrong move decides");
    assert_eq!(checked(EXAMPLE, &[9, 9, 0, 9], "0"), no(0, 2));
    assert_eq!([&[][..], &[4]].map(|file| check(file, &[], b"0")), [Verdict::Yes; 2]);
    assert_eq!([&[][..], &[4]].map(|file| check(file, &[0, 255], b"0")), [no(0, 2); 2]);
}

#[test]
fn the_listing_byte_for_byte() {
    let term = "2[] | 10[open 1]";
    assert_eq!(checked(term, &[], "10[open 1] | 2[]"), Verdict::Yes);
    for other in ["2[] | 10[open 1]", "10[open 1] | 2[]\n", "10[open 1] | 2[] ", "10[open 1] | 2[", "", "0", "10/10/10/10[open 1] | 2[]"] {
        assert_eq!(checked(term, &[], other), no(0, 4));
    }
    assert_eq!([checked("0", &[], "0"), checked("0", &[], "")], [Verdict::Yes, no(0, 4)]);
    assert_eq!(check(&file_of("7[]"), &[], &[55, 91, 93, 0]), no(0, 4));
}

#[test]
fn the_byte_of_each_kind() {
    // every byte: those that are permitted, and the listing after each
    let permitted = |term: &str, agent: u8, ends: &[(u8, &str)]| {
        for byte in 0..=255 {
            let end = ends.iter().find(|(right, _)| *right == byte);
            assert_eq!(checked(term, &[agent, byte], end.map_or("", |end| end.1)), if end.is_some() { Verdict::Yes } else { no(0, 1) });
        }
    };
    permitted("3[enter 4] | 4[] | 5[] | 4[6[]]", 0, &[(2, "4[3[]] | 4[6[]] | 5[]"), (4, "4[3[] | 6[]] | 4[] | 5[]")]);
    permitted("4[enter 4 | 4[]] | 1[4[]]", 0, &[]);
    permitted("enter 4 | 4[]", 0, &[]);
    permitted("9[7[exit 9 | 5[]]]", 0, &[(255, "7[5[]] | 9[]")]);
    permitted("9[exit 9]", 0, &[]);
    permitted("exit 9 | 9[]", 0, &[]);
    permitted("9[8[7[exit 9]]]", 0, &[]);
    permitted("8[9[8[7[exit 8]]]]", 0, &[(255, "8[9[7[] | 8[]]]")]);
    permitted("open 7 | 7[8[] | enter 8] | 6[7[]] | 7[]", 0, &[(1, "enter 8 | 6[7[]] | 7[] | 8[]"), (5, "6[7[]] | 7[enter 8 | 8[]]")]);
    permitted("7[open 7] | 7[]", 0, &[]);
    permitted("7[release 9 | 9[]] | 9[]", 0, &[(255, "7[9[] | 9[]] | 9[]")]);
    permitted("release 9.open 9", 0, &[(255, "open 9 | 9[]")]);
}

#[test]
fn the_key_of_its_kind() {
    for (term, byte, said) in [
        ("1[enter 4] | 9/4/5/6[]", 2, Verdict::Yes),
        ("1[enter 9] | 9/4/5/6[]", 2, no(0, 1)),
        ("1[enter 5] | 9/4/5/6[]", 2, no(0, 1)),
        ("9/4/5/6[1[exit 5]]", 255, Verdict::Yes),
        ("9/4/5/6[1[exit 9]]", 255, no(0, 1)),
        ("9/4/0/6[1[exit 4]]", 255, no(0, 1)),
        ("open 6 | 9/4/5/6[1[]]", 1, Verdict::Yes),
        ("open 9 | 9/4/5/6[1[]]", 1, no(0, 1)),
        ("open 9 | 9/9/9/0[1[]]", 1, no(0, 1)),
    ] {
        let ends = ["9/4/5/6[1[]]", "1[] | 9/4/5/6[]", "1[]"];
        let verdicts = ends.map(|end| checked(term, &[0, byte], end));
        assert_eq!(verdicts.contains(&Verdict::Yes), said == Verdict::Yes, "{term}");
        assert!(said == Verdict::Yes || verdicts == [said; 3], "{term}");
    }
}

#[test]
fn what_is_put_and_its_number() {
    // places 1 and 3 are there: 2 is put, entered by the agent in 1, then opened; its number is given again
    let file = [&[1, 1, 0, 7, 0, 1, 3, 0, 7, 0, 2, 0, 0][..], &[3, 0, 4, 9, 0, 3, 0, 3, 9, 0, 3, 0, 4, 8, 0, 2, 1, 1, 3, 1, 1, 9, 0, 4]];
    let file = file.concat();
    let moves = [0, 255, 1, 2, 0, 2, 0, 255];
    let ends = ["open 9.release 8 | 7[] | 7[enter 9] | 9[]", "open 9.release 8 | 7[] | 9[7[]]", "release 8 | 7[] | 7[]", "7[] | 7[] | 8[]"];
    for (made, end) in ends.iter().enumerate() {
        assert_eq!(check(&file, &moves[..2 * made + 2], end.as_bytes()), Verdict::Yes);
    }
    assert_eq!(check(&file, &[1, 2], b""), no(0, 1), "not before it is put");
    assert_eq!(check(&file, &[0, 255, 1, 4], b""), no(1, 1), "nor under another number");
    assert_eq!(check(&file, &[0, 255, 0, 2, 1, 2], b""), no(2, 1), "nor after it is opened");
}

#[test]
fn with_all_numbers_in_use() {
    let full = format!("release 9.release 9 | open 5{}", " | 5[]".repeat(62));
    let after = |put: usize, fives: usize, agents: &str| {
        let places = [vec!["5[]"; fives], vec!["9[]"; put]].concat().join(" | ");
        format!("{agents}{places}")
    };
    assert_eq!(checked(&full, &[0, 255], &after(1, 62, "open 5 | release 9 | ")), Verdict::Yes);
    assert_eq!(checked(&full, &[0, 255, 0, 255], ""), no(1, 1), "64 places are in use");
    assert_eq!(checked(&full, &[0, 255, 1, 17, 0, 255], &after(2, 61, "")), Verdict::Yes, "until one is opened");
    assert_eq!(checked(&full, &[0, 255, 1, 63, 0, 255], ""), no(1, 1), "63 is the one put, which is named 9");
}

#[test]
fn touches_play_no_part() {
    let file = [&[5, 0, 1, 2, 3, 4, 1, 1, 0, 7, 0, 5, 1, 9, 9, 9, 9][..], &[2, 0, 0, 3, 0, 3, 7, 0, 4]].concat();
    assert_eq!(check(&file, &[0, 1], b"0"), Verdict::Yes);
    assert_eq!(check(&file, &[], b"open 7 | 7[]"), Verdict::Yes);
}

#[test]
fn moves_that_the_keepers_locks_would_hold_up() {
    // the keeper opens nothing that something is on its way to; a trail knows no ways
    let term = "open 1 | 1[2[3[exit 2]]]";
    let mut cell = load(&file_of(term)).unwrap();
    let mut trail = Vec::new();
    (0..4).for_each(|_| assert!(trailed_step(&mut cell, &mut trail, 1, 255).is_ok()));
    assert_eq!(trail, [1, 255]);
    let words = [0, 0, 0].map(|agent| trailed_step(&mut cell, &mut trail, agent, 255).unwrap().word);
    assert_eq!((words[2], &trail[..]), (Word::Slept, &[1, 255][..]));
    assert_eq!(checked(term, &[1, 255, 0, 1], "2[] | 3[]"), Verdict::Yes);
    assert_eq!(checked(term, &[0, 1, 1, 255], "2[] | 3[]"), Verdict::Yes);
}
