//! The crate's own rules.

use super::*;

#[test]
fn up_to_sixteen_tags() {
    for number in 0..=16 {
        assert_eq!(Bench::of_tags(&vec![tag_a(); number]).call(&[]), 1);
    }
    let mut bench = Bench::of_tags(&vec![tag_a(); 17]);
    let before = bench.clone();
    assert_eq!(bench.call(&INVENTORY), 11);
    assert_eq!(bench, before);
}

/// The answer number of the three tags with these places in a memory of so many bytes. The image of
/// each is there wherever its place is within the memory.
fn with_places(places: [(u64, u64); 3], memory: usize) -> u64 {
    let mut bench = three();
    bench.memory = vec![0x5A; memory];
    for ((from, _), image) in places.iter().zip([tag_a(), tag_b(), tag_c()]) {
        if let Some(rest) = bench.memory.get_mut(*from as usize..) {
            let size = rest.len().min(image.len());
            rest[..size].copy_from_slice(&image[..size]);
        }
    }
    bench.places = places.to_vec();
    bench.call(&[])
}

#[test]
fn places_within_the_memory() {
    // one behind the other, also in another order, with gaps, and up to the last byte
    assert_eq!(with_places([(0, 86), (86, 86), (172, 86)], 258), 1);
    assert_eq!(with_places([(172, 86), (0, 86), (86, 86)], 258), 1);
    assert_eq!(with_places([(200, 86), (3, 86), (100, 86)], 300), 1);
    // one byte over the end, whichever tag it is
    assert_eq!(with_places([(0, 86), (86, 86), (172, 86)], 257), 11);
    assert_eq!(with_places([(172, 86), (86, 86), (0, 86)], 257), 11);
    // far out; "a sum that would wrap is outside"
    assert_eq!(with_places([(0, 86), (86, 86), (1 << 32, 86)], 258), 11);
    assert_eq!(with_places([(0, 86), (86, 86), (u64::MAX, 86)], 258), 11);
    let wrapping = 0u64.wrapping_sub(86);
    assert_eq!(with_places([(0, 86), (86, 86), (wrapping, 86)], 258), 11);
    assert_eq!(with_places([(0, 86), (86, 86), (172, u64::MAX)], 258), 11);
    assert_eq!(with_places([(0, 86), (86, 86), (172, 0)], 258), 11);
    assert_eq!(with_places([(0, 86), (86, 86), (258, 0)], 258), 11);
    // a place that is not its image's length
    assert_eq!(with_places([(0, 86), (86, 86), (172, 85)], 258), 11);
    assert_eq!(with_places([(0, 86), (86, 86), (172, 87)], 300), 11);
}

/// A tag whose last byte is behind its last bank: another image may start there, and both are good.
#[test]
fn places_do_not_overlap() {
    let mut longer = tag_a();
    longer.resize(87, 0);
    set_double(&mut longer, 2, 87);
    for shared in [0, 1] {
        // the two with a byte in common are neighbours in number or not, and in either order
        for (one, two) in [(0, 1), (1, 0), (0, 2), (2, 0), (1, 2), (2, 1)] {
            let mut bench = three();
            bench.memory = vec![0; 300];
            bench.memory[..87].copy_from_slice(&longer);
            let from = 87 - shared;
            bench.memory[from..from + 86].copy_from_slice(&tag_b());
            bench.memory[200..286].copy_from_slice(&tag_c());
            bench.places = vec![(200, 86); 3];
            bench.places[one] = (0, 87);
            bench.places[two] = (from as u64, 86);
            let expected = if shared == 0 { 1 } else { 11 };
            assert_eq!(bench.call(&[]), expected, "{one}, {two}");
        }
    }
    // the same place for two, and one within the other
    assert_eq!(with_places([(0, 86), (100, 86), (0, 86)], 258), 11);
    let mut outer = tag_a();
    outer.extend(tag_b());
    set_double(&mut outer, 2, 172);
    let mut bench = Bench::of_tags(&[outer, tag_c()]);
    assert_eq!(bench.call(&[]), 1);
    bench.places[1] = (86, 86);
    assert_eq!(bench.call(&[]), 11);
}

/// "a bad image" of any tag, present or not, meant by the selection or not
#[test]
fn each_image_is_good() {
    for start in STARTS {
        for state in 0..3 {
            let mut bench = three();
            bench.selection = PUBLISHED[5..24].to_vec();
            bench.memory[start + 22] = state;
            assert_eq!(bench.call(&[]), 1);
            bench.memory[start + 33] ^= 1;
            let before = bench.clone();
            assert_eq!(bench.call(&INVENTORY), 11);
            assert_eq!(bench, before);
        }
    }
}

/// "a selection that is neither empty nor one that Set Select takes", also in an empty crate
#[test]
fn selection_is_good() {
    let mut bench = Bench::of_tags(&[]);
    assert_eq!(bench.call(&[]), 1);
    bench.selection = PUBLISHED[5..24].to_vec();
    assert_eq!(bench.call(&[]), 1);
    for parameters in not_taken() {
        bench.selection = parameters;
        let expected = if bench.selection.is_empty() { 1 } else { 11 };
        assert_eq!(bench.call(&[]), expected, "{:02X?}", bench.selection);
    }
}
