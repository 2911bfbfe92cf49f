//! Where there is no sheet, and the sheets of the sample folders.

use super::*;
use std::fs::read;
use std::path::{Path, PathBuf};

#[test]
fn bad_images() {
    let mut bad = sample_image();
    bad[1] = 2;
    for commands in [&[][..], &[0x41], &INVENTORY] {
        is_page_of(commands, &[bad.clone()], false, &["REFUSED 11"]);
        is_page_of(commands, &[Vec::new()], false, &["REFUSED 11"]);
        let later = [sample_image(), bad.clone()];
        is_page_of(commands, &later, true, &["REFUSED 11"]);
        let missing = [sample_image(), Vec::new(), sample_image()];
        is_page_of(commands, &missing, true, &["REFUSED 11"]);
        let seventeen = vec![sample_image(); 17];
        is_page_of(commands, &seventeen, true, &["REFUSED 11"]);
    }
}

/// "at most 32,768 and 2,048 bytes; a longer file gives only `TOO LONG`", before any call is made.
#[test]
fn too_long() {
    is_page(&[0x41; 32_769], &["TOO LONG"]);
    is_page_of(&[], &[vec![0; 2049]], false, &["TOO LONG"]);
    is_page_of(&[], &[vec![0; 2048]], false, &["REFUSED 11"]);
    let tags = [sample_image(), vec![0; 2049]];
    is_page_of(&[0x41], &tags, true, &["TOO LONG"]);
    let longest = page(&[0x41; 32_768], &[sample_image()], false);
    assert_eq!(longest.lines().count(), 12);
    assert!(longest.contains("32768 bytes dropped"));
}

fn folder(name: &str) -> PathBuf {
    Path::new(env!("CARGO_MANIFEST_DIR"))
        .join("../samples")
        .join(name)
}

fn file(name: &str, file: &str) -> Vec<u8> {
    read(folder(name).join(file)).expect("a file of a sample")
}

/// The stored sheets of the samples, which the gate holds against the proved program.
#[test]
fn samples() {
    for name in [
        "sample",
        "false-header",
        "dropped",
        "broken-off",
        "bad-image",
        "locked-again",
        "new-epc",
        "history",
    ] {
        let page = page(&file(name, "commands.bin"), &[file(name, "tag.img")], false);
        assert_eq!(page.into_bytes(), file(name, "sheet.txt"), "{name}");
    }
    let tags: Vec<_> = (0..5)
        .map(|tag| file("crate", &format!("tag-{tag:02}.img")))
        .collect();
    let page = page(&file("crate", "commands.bin"), &tags, true);
    assert_eq!(page.into_bytes(), file("crate", "sheet.txt"));
}
