//! Folders drawn for the comparison.

use crate::folder::{Entry, Folder};
use crate::inputs::commands;
use poldrisk::generator::crates::good_crate;
use poldrisk::generator::{good_image, image_of_odd_words, poke_image, Random};
use poldrisk::model::sheet::{MOST_COMMAND_BYTES, MOST_TAG_BYTES};

/// Any folder: half of them with one tag, most of them good.
pub fn draw(random: &mut Random) -> Folder {
    let mut folder = if random.percent(50) {
        one_tag(random)
    } else {
        a_crate(random)
    };
    match random.below(24) {
        0 | 1 => spoil_image(random, &mut folder),
        2 | 3 => missing(random, &mut folder),
        4 | 5 => too_long(random, &mut folder),
        6 | 7 => directory(random, &mut folder),
        8 if folder.tag.is_there() => beside(random, &mut folder),
        _ => {}
    }
    folder
}

fn one_tag(random: &mut Random) -> Folder {
    let image = good_image(random);
    Folder {
        commands: Entry::File(commands(random, std::slice::from_ref(&image))),
        tag: Entry::File(image),
        numbered: Vec::new(),
    }
}

/// A crate of 1 to 17 tags; now and then of none, which is a folder without any image.
fn a_crate(random: &mut Random) -> Folder {
    let mut images = crate_images(random);
    while images.is_empty() && random.percent(70) {
        images = crate_images(random);
    }
    if !images.is_empty() && random.percent(15) {
        fill_up(random, &mut images);
    }
    Folder {
        commands: Entry::File(commands(random, &images)),
        tag: Entry::Missing,
        numbered: images.into_iter().map(Entry::File).collect(),
    }
}

/// As many tags as a crate may hold, or one more, each like one of these and all of them present: else hardly
/// any inventory hands out sixteen.
fn fill_up(random: &mut Random, images: &mut Vec<Vec<u8>>) {
    let number = random.pick(&[16, 16, 17]);
    while images.len() < number {
        let like = random.below(images.len());
        images.push(images[like].clone());
    }
    images.iter_mut().for_each(|image| image[22] = 0);
}

fn crate_images(random: &mut Random) -> Vec<Vec<u8>> {
    let tags = good_crate(random);
    let images = (0..tags.places.len()).map(|tag| tags.image(tag).to_vec());
    images.collect()
}

/// One of the images at a bound of an image's rules or beyond it; such a file may also be too long.
fn spoil_image(random: &mut Random, folder: &mut Folder) {
    let tag = some_tag(random, folder);
    let Entry::File(image) = tag else {
        return;
    };
    match random.below(5) {
        0 => *image = image_of_odd_words(random),
        1 => image.clear(),
        _ => poke_image(random, image),
    }
}

/// Without one of its files. Of a crate this may be the last tag, which then is not one.
fn missing(random: &mut Random, folder: &mut Folder) {
    if random.percent(25) {
        folder.commands = Entry::Missing;
    } else {
        *some_tag(random, folder) = Entry::Missing;
    }
}

/// A file that is one byte or more above its limit.
fn too_long(random: &mut Random, folder: &mut Folder) {
    if random.percent(25) {
        let above = random.pick(&[1, 1, 2, 5000]);
        let mut bytes = folder.commands.bytes().to_vec();
        bytes.resize(MOST_COMMAND_BYTES + above, 0x41);
        folder.commands = Entry::File(bytes);
        return;
    }
    let above = random.pick(&[1, 1, 2, 5000]);
    let tag = some_tag(random, folder);
    let mut image = tag.bytes().to_vec();
    image.resize(MOST_TAG_BYTES + above, 0);
    *tag = Entry::File(image);
}

/// A directory in a file's place.
fn directory(random: &mut Random, folder: &mut Folder) {
    if folder.commands.bytes().len() > MOST_COMMAND_BYTES || random.percent(25) {
        folder.commands = Entry::Directory;
    } else {
        *some_tag(random, folder) = Entry::Directory;
    }
}

/// Numbered files beside a tag.img: the folder is no crate, and nobody looks at them.
fn beside(random: &mut Random, folder: &mut Folder) {
    let entry = |random: &mut Random| match random.below(5) {
        0 => Entry::Missing,
        1 => Entry::Directory,
        2 => Entry::File(vec![0; MOST_TAG_BYTES + 1]),
        _ => Entry::File(good_image(random)),
    };
    let number = random.pick(&[1, 2, 3, 16, 17]);
    folder.numbered = (0..number).map(|_| entry(random)).collect();
}

fn some_tag<'a>(random: &mut Random, folder: &'a mut Folder) -> &'a mut Entry {
    let tags = folder.tags_mut();
    &mut tags[random.below(tags.len())]
}
