//! Images, crates, lists, commands and inputs for the tests, drawn from a seed. Values are drawn near the bounds
//! of the rules, on both sides, since that is where two readings of a rule part.

pub mod bad_crates;
mod bad_images;
mod commands;
pub mod crates;
mod images;
mod inputs;
pub mod lists;
mod random;
pub mod selections;
pub mod starts;

pub use bad_images::poke_image;
pub use commands::{command, frame, lock_anew};
pub use images::{
    double, good_image, image_of_odd_words, offset_place, password, sample_image, sample_tag,
    set_crc_word, set_double, words_place,
};
pub use inputs::{counts, damaged, input};
pub use random::Random;
