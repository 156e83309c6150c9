//! Holds the refusals to their page, docs/REFUSALS.md.

use lapurmihi::Refusal;
use std::error::Error;
use std::io;

const PAGE: &str = include_str!("../../../docs/REFUSALS.md");

/// The rows of the table before the page's first heading of a section: number, name and sentence.
fn rows() -> impl Iterator<Item = (u32, String, String)> {
    let cells = |row: &str| {
        let cells: Vec<String> = row.split('|').map(|cell| cell.trim().replace('`', "")).collect();
        let [_, number, name, sentence, _] = <[String; 5]>::try_from(cells).ok()?;
        Some((number.parse().ok()?, name, sentence))
    };
    let table = PAGE.split("\n## ").next().unwrap_or_default();
    table.lines().filter_map(cells)
}

#[test]
fn the_page_and_the_crate_agree() {
    let ours = Refusal::ALL.iter();
    let ours = ours.map(|r| (r.number(), r.name().to_string(), r.sentence().to_string()));
    assert_eq!(ours.collect::<Vec<_>>(), rows().collect::<Vec<_>>());
}

#[test]
fn the_numbers_are_1_to_23_and_25() {
    assert_eq!(Refusal::ALL.len(), 24);
    for (number, &refusal) in (1..=23).chain([25]).zip(Refusal::ALL) {
        assert_eq!(Refusal::try_from(number), Ok(refusal));
    }
    for number in [0, 24, 26, u32::MAX] {
        assert_eq!(Refusal::try_from(number), Err(number));
    }
}

#[test]
fn a_variant_is_its_name_in_other_letters() {
    for refusal in Refusal::ALL {
        let name = refusal.name().replace('_', "").to_lowercase();
        assert_eq!(format!("{refusal:?}").to_lowercase(), name);
    }
}

#[test]
fn a_refusal_is_an_error() {
    let error: Box<dyn Error> = Refusal::TooShort.into();
    assert_eq!(error.to_string(), "refusal 18: the lent image or table is too short");
    let error = io::Error::from(Refusal::TooShort);
    assert_eq!(error.downcast::<Refusal>().unwrap(), Refusal::TooShort);
}
