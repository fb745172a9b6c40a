//! The call `respond` held to the reference on random inputs, with pages on both sides of the length that the text needs.
#[allow(dead_code)] // the tests of the other calls use the rest
mod agreed;
#[allow(dead_code)] // likewise
mod draw;
#[allow(dead_code)] // likewise
mod profile_file;
#[allow(dead_code)] // likewise
mod program_input;
#[allow(dead_code)] // likewise
mod tally;

use draw::Draw;
use program_input::{constant_file, dates, drawn_input, has_a_years_end, input};
use tally::Tally;

const INPUTS: u64 = 20_000;

/// The text, or question 12 with the bytes needed: the bytes of the text are put at the start of the page where they fit.
#[test]
fn random_inputs_agree() {
    let (mut texts, mut answers) = (Tally::default(), Tally::default());
    let (mut just_enough, mut unlisted, mut listed) = (0, 0, 0);
    for seed in 0..INPUTS {
        let mut draw = Draw::new(8_000_000 + seed);
        let input = drawn_input(&mut draw);
        let listing = reference::program::listing(&input);
        let text = reference::program::text(&input);
        unlisted += u32::from(has_a_years_end(&text, "W2"));
        listed += u32::from(has_a_years_end(&text, "W3"));
        let needed = text.len();
        let mut page = vec![draw.byte(); draw::output_length(&mut draw, needed)];
        let answer = agreed::respond(&input, &mut page, &format!("seed {seed}"));
        just_enough += u32::from(page.len() == needed && answer.is_ok());
        texts.note(&listing);
        answers.note(&answer);
    }
    texts.expect(
        "texts of respond",
        &[1, 2, 3, 4, 5, 6, 7, 8, 9, 10, 13],
        100,
    );
    answers.expect("respond", &[12], 100);
    answers.expect_many_places(12, 100);
    assert!(just_enough >= 1_000, "{just_enough}");
    println!("respond: 24 or 31 December, no Sunday, {listed} listed, {unlisted} not");
    assert!(listed >= 200 && unlisted >= 200, "{listed} {unlisted}");
}

/// Document 01's listing, two refusals and a listing of the largest figures, each on a page of just its length, and of one byte less.
#[test]
fn the_border_of_question_12() {
    let two_days = [20_000_325, 20_000_326, 1000];
    let four_years = [19_960_101, 19_991_231, 1_000_000_000];
    let inputs = [
        (input(1, two_days, &[], &constant_file(1, 1001)), 67),
        (input(2, two_days, &[], &constant_file(1, 1001)), 12),
        (vec![], 13),
        (
            input(
                0,
                four_years,
                &dates(19_960_101, 400),
                &constant_file(0, 20_000),
            ),
            LARGEST_LISTING,
        ),
    ];
    for (input, needed) in inputs {
        let what = format!("{needed} bytes");
        let mut page = vec![b'?'; needed];
        assert_eq!(agreed::respond(&input, &mut page, &what), Ok(needed));
        assert_eq!(page, reference::program::text(&input).as_bytes());
        page = vec![b'?'; needed - 1];
        let short = agreed::refused(12, needed);
        assert_eq!(agreed::respond(&input, &mut page, &what), short);
        assert_eq!(page, vec![b'?'; needed - 1]);
        assert_eq!(agreed::respond(&input, &mut [], &what), short);
    }
}

/// 1,461 lines of households at the largest values and use, and the last line.
const LARGEST_LISTING: usize = 42_408;
