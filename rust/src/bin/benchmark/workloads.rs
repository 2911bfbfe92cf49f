//! The workloads: a crate, an input, and what its calls do.

use crate::inputs;
use poldrisk::generator::{
    double, offset_place, sample_image, sample_tag, set_crc_word, set_double,
};
use poldrisk::model::Bench;

/// What the calls of a workload do. One that does something else than its name says would be timed
/// for nothing.
#[derive(Clone, Copy, PartialEq, Eq)]
pub enum Does {
    /// Each call drops a byte, for some of these reasons and for each of them.
    Drop([bool; 5]),
    /// Each call answers a command.
    Answer,
    /// Each frame of so many bytes gets so many good answers.
    Good { frame: u64, answers: u64 },
}

const NO_HEADER: Does = Does::Drop([true, false, false, false, false]);
const WRONG_CHECK: Does = Does::Drop([true, false, false, true, false]);

impl Does {
    /// Whether this is what was done on an input of so many bytes: what the counts then are.
    pub fn is_done(&self, input: u64, counts: [u64; 7]) -> bool {
        let [good, error, dropped @ ..] = counts;
        match self {
            Does::Drop(reasons) => good + error == 0 && dropped.map(|count| count > 0) == *reasons,
            Does::Answer => good > 0 && dropped == [0; 5],
            Does::Good { frame, answers } => {
                good == input / frame * answers && error == 0 && dropped == [0; 5]
            }
        }
    }
}

pub struct Workload {
    pub name: String,
    pub start: Bench,
    /// An input of about so many bytes.
    pub input: fn(usize) -> Vec<u8>,
    pub does: Does,
}

/// Sixteen tags that differ in the last word of their EPC.
pub fn sample_tags(number: usize) -> Vec<Vec<u8>> {
    (0..number).map(sample_tag).collect()
}

/// The largest tag: 33 EPC words with L at 31, 32 TID words and 512 User words.
fn large_image() -> Vec<u8> {
    let mut image = vec![0; 24];
    let words = [4, 33, 32, 512];
    for (bank, count) in words.into_iter().enumerate() {
        let offset = image.len();
        set_double(&mut image, 4 + 4 * bank, count);
        set_double(&mut image, offset_place(bank), offset);
        image.resize(offset + 2 * count, bank as u8);
    }
    let total = image.len();
    set_double(&mut image, 0, 1);
    set_double(&mut image, 2, total);
    let pc = double(&image, offset_place(1)) + 2;
    image[pc] = 31 << 3;
    set_crc_word(&mut image);
    image
}

/// Those of one tag, on one and on sixteen; then those that only a crate has.
pub fn all() -> Vec<Workload> {
    let mut all = Vec::new();
    for number in [1, 16] {
        let samples = vec![sample_image(); number];
        let large = vec![large_image(); number];
        let mut add = |name, images: &[Vec<u8>], input, does| {
            let tags = if number == 1 {
                "one tag"
            } else {
                "sixteen tags"
            };
            all.push(Workload {
                name: format!("{name}, {tags}"),
                start: Bench::of_tags(images),
                input,
                does,
            });
        };
        add("noise without BB", &samples, inputs::noise, NO_HEADER);
        add("all five commands", &samples, inputs::mix, Does::Answer);
        let without = inputs::mix_without_inventory;
        add("all but the inventory", &samples, without, Does::Answer);
        let writes = "Writes of PC and EPC, each with a new CRC word";
        add(writes, &large, inputs::epc_writes, Does::Answer);
        let headers = "false headers, each with a whole wrong frame behind it";
        add(headers, &samples, inputs::false_headers, WRONG_CHECK);
        add(
            "longest Reads and Writes",
            &large,
            inputs::longest,
            Does::Answer,
        );
    }
    all.extend(crates());
    all
}

fn crates() -> [Workload; 3] {
    let sixteen = Bench::of_tags(&sample_tags(16));
    let mut last = sixteen.clone();
    last.selection = inputs::selection_of(15);
    let workload = |name: &str, start, input, frame, answers| Workload {
        name: name.to_string(),
        start,
        input,
        does: Does::Good { frame, answers },
    };
    [
        workload(
            "inventories, sixteen tags handed out",
            sixteen.clone(),
            inputs::inventories,
            7,
            16,
        ),
        workload(
            "Reads aimed at the last of sixteen by a selection",
            last,
            inputs::reads,
            16,
            1,
        ),
        // a Set Select has 26 bytes and a Read 16
        workload(
            "Set Select and Read, tag by tag of sixteen",
            sixteen,
            inputs::selected_reads,
            42,
            2,
        ),
    ]
}
