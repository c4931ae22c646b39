//! (c) Damaged heads and images and random bytes (damage.rs): the product's text is
//! the text of rules.rs and table.rs.
//!
//! Document 01: "The reader goes through the image in order, and the first rule
//! broken gives the answer", and the table "Refused, and on what". Request 104: 16
//! is judged "in `reduce` once the image is read".

use independent::damage::{same, Answers, Inputs};
use independent::product::reduce_text;
use independent::rules::text_for;

fn answer(input: &[u8]) -> Result<usize, String> {
    same(&reduce_text, input, &text_for(input))
}

#[test]
fn each_single_byte_changed() {
    let answers = Answers::default();
    Inputs::OfReduce.single_bytes(|input| answers.count(answer(input)));
    answers.show("each single byte of 8 inputs set to each value", "listings");
}

#[test]
fn each_truncation_and_extension() {
    let answers = Answers::default();
    Inputs::OfReduce.cut_and_extended(|input| answers.count(answer(input)));
    answers.show("truncations and one-byte extensions of 8 inputs", "listings");
}

#[test]
fn masks_too_high() {
    let answers = Answers::default();
    Inputs::OfReduce.too_high_masks(|input| answers.count(answer(input)));
    answers.show("masks with too high bits before 8 images, also damaged ones", "listings");
}

#[test]
fn each_mask_bit() {
    let answers = Answers::default();
    Inputs::OfReduce.each_mask_bit(|input| answers.count(answer(input)));
    answers.show("each bit of a mask with each number of events", "listings");
}

#[test]
fn largest_image_damaged() {
    let answers = Answers::default();
    Inputs::OfReduce.largest(|input| answers.count(answer(input)));
    answers.show("the largest image damaged", "listings");
}

#[test]
fn several_bytes_changed() {
    let answers = Answers::default();
    Inputs::OfReduce.several_bytes(|input| answers.count(answer(input)));
    answers.show("several bytes changed", "listings");
}

#[test]
fn random_bytes() {
    let answers = Answers::default();
    Inputs::OfReduce.random_bytes(|input| answers.count(answer(input)));
    answers.show("random bytes", "listings");
}

#[test]
fn long_inputs() {
    let answers = Answers::default();
    Inputs::OfReduce.long(|input| answers.count(answer(input)));
    answers.show("long inputs", "listings");
}
