//! Crates drawn at random, held against their tags one by one.

use super::*;

/// A bench with one tag of another's crate, and the selection.
fn alone(bench: &Bench, tag: usize) -> Bench {
    let image = image_at(&bench.memory, bench.places[tag]).to_vec();
    Bench {
        selection: bench.selection.clone(),
        ..Bench::new(image)
    }
}

/// The tags that answer an inventory by themselves, and their frames.
fn meant(bench: &Bench) -> Vec<(usize, String)> {
    (0..bench.places.len())
        .map(|tag| (tag, inventory(&mut alone(bench, tag)).concat()))
        .filter(|(_, frame)| frame != NO_TAG)
        .collect()
}

fn random_bench(random: &mut Random) -> Bench {
    let tags = good_crate(random);
    let mut bench = Bench::of_tags(&[]);
    if let Some(place) = tags.places.first() {
        let selection = select_parameters(random, image_at(&tags.memory, *place));
        bench.selection = selection;
        if bench.call(&[]) == 11 {
            bench.selection.clear();
        }
    }
    bench.memory = tags.memory;
    bench.places = tags.places;
    bench
}

/// An inventory in a crate is the inventories of its tags one by one.
#[test]
fn crate_hands_out_what_each_tag_would() {
    let mut random = Random::new(5);
    let mut several = 0;
    for _ in 0..400 {
        let mut bench = random_bench(&mut random);
        let memory = bench.memory.clone();
        let mut expected: Vec<_> = meant(&bench).into_iter().map(|(_, frame)| frame).collect();
        several += u64::from(expected.len() > 1);
        if expected.is_empty() {
            expected.push(NO_TAG.to_string());
        }
        assert_eq!(inventory(&mut bench), expected);
        assert_eq!(bench.memory, memory);
    }
    assert!(several > 50, "{several}");
}

/// Any other command in a crate is the command on the lowest tag that answers by itself: the answer,
/// and the tag's bytes; no other byte of the memory changes. A good crate stays good.
#[test]
fn crate_does_what_the_lowest_tag_would() {
    let mut random = Random::new(6);
    let mut changed = 0;
    for _ in 0..1500 {
        let mut bench = random_bench(&mut random);
        let input = crate_input(&mut random, &bench.memory, &bench.places);
        for _ in 0..input.len() + 15 * input.len() / 7 + 1 {
            let before = bench.clone();
            let target = meant(&before).first().map(|(tag, _)| *tag);
            let number = call_signing(&mut bench, &input);
            assert_ne!(number, 11);
            if number != 0 {
                assert_eq!(bench.memory, before.memory);
                if number != 3 {
                    break;
                }
            } else if let (Some(tag), true) = (target, bench.cursor > before.cursor) {
                let mut single = alone(&before, tag);
                single.cursor = before.cursor;
                assert_eq!(single.call(&input), 0);
                assert_eq!(said(&single), said(&bench));
                let mut memory = before.memory.clone();
                let start = before.places[tag].0 as usize;
                memory[start..start + single.memory.len()].copy_from_slice(&single.memory);
                assert_eq!(bench.memory, memory);
                changed += u64::from(bench.memory != before.memory);
            }
        }
    }
    assert!(changed > 100, "{changed}");
}

/// "the bound on calls, from a start with none to hand out, grows by 15 for each accepted inventory"
#[test]
fn bound_on_calls() {
    let mut random = Random::new(7);
    for _ in 0..1000 {
        let mut bench = random_bench(&mut random);
        let input = crate_input(&mut random, &bench.memory, &bench.places);
        let (mut calls, mut inventories) = (0, 0);
        loop {
            let at = bench.cursor as usize;
            if ![0, 3].contains(&call_signing(&mut bench, &input)) {
                break;
            }
            calls += 1;
            let accepted = bench.cursor as usize > at && bench.length > 0;
            inventories += usize::from(accepted && input[at + 2] == 0x22);
        }
        assert!(calls <= input.len() + 15 * inventories);
    }
    // one accepted inventory on sixteen tags
    let mut bench = Bench::of_tags(&vec![tag_a(); 16]);
    assert_eq!(inventory(&mut bench).len(), 1 + 15);
}

/// The three tags' CRC words, once more by the generator.
#[test]
fn tags_are_good() {
    for image in [tag_a(), tag_b(), tag_c()] {
        let mut same = image.clone();
        set_crc_word(&mut same);
        assert_eq!(same, image);
    }
    assert_eq!(fresh(), Bench::new(tag_a()));
}
