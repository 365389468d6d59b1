//! The numbers of document 01, "Refusal numbers", and its words; 10 to 14 are document 02's.

use std::error::Error;
use trnadulek::{Refusal, UnknownNumber};

#[test]
fn every_refusal_has_its_number_and_words() {
    let table = [
        (1, "memory length is not 65,536"),
        (2, "low four bits of F are not 0"),
        (3, "mode is Stopped when a step is due"),
        (4, "the step would run an undefined opcode"),
        (5, "budget above 1,048,576"),
        (6, "head, image or output slice of wrong length"),
        (7, "version byte is not 1"),
        (8, "a block length is not 14, or not 65,536"),
        (9, "IME code above 2, or mode code above 3"),
        (10, "output too short"),
        (11, "edition number is neither 1 nor 2"),
        (12, "a line of no such form"),
        (13, "nesting deeper than 16"),
        (14, "number or value out of range"),
    ];
    let told = Refusal::ALL.map(|refusal| (refusal.number(), refusal.to_string()));
    assert_eq!(
        told,
        table.map(|(number, words)| (number, words.to_string()))
    );
}

#[test]
fn numbers_and_refusals_there_and_back() {
    for number in 0..=255 {
        let given = Refusal::try_from(number).map(Refusal::number);
        let wanted = match number {
            1..=14 => Ok(number),
            _ => Err(UnknownNumber(number)),
        };
        assert_eq!(given, wanted);
    }
}

#[test]
fn a_refusal_is_an_error_and_so_is_a_number_that_is_none() {
    let error: Box<dyn Error> = Refusal::Version.into();
    assert_eq!(error.to_string(), "version byte is not 1");
    let error: Box<dyn Error> = UnknownNumber(15).into();
    assert_eq!(error.to_string(), "no refusal has the number 15");
}
