//! The model's state as the C interface of the proved bench has it.

use crate::model::{Bench, Record};
use crate::packed::{
    Packed, COUNTS, COUNT_OUT_OF_RANGE, CURSOR, HELD, LENGTH, LIMIT, MOST_TAGS, NEXT,
    PLACES_OUT_OF_RANGE, REASON, RECORD_LENGTH, SELECTED, SELECTION_LENGTH, STATE_LENGTH,
};

/// The model's state packed. Of the selection's 39 bytes those behind the selection are free: they
/// are taken from `behind`.
pub fn packed_of(bench: &Bench, behind: &[u8; SELECTION_LENGTH]) -> Packed {
    let mut state = vec![0; STATE_LENGTH];
    state[CURSOR] = bench.cursor;
    state[COUNTS].copy_from_slice(&bench.counts());
    state[LENGTH] = bench.length;
    state[REASON] = bench.reason;
    state[NEXT] = bench.next;
    state[SELECTED] = bench.selection.len() as u64;
    state[HELD] = bench.held;
    let mut selection = *behind;
    for (to, from) in selection.iter_mut().zip(&bench.selection) {
        *to = *from;
    }
    Packed {
        memory: bench.memory.clone(),
        places: bench.places.iter().flat_map(|p| [p.0, p.1]).collect(),
        selection,
        output: bench.output.clone(),
        records: bench.records.iter().flat_map(numbers_of).collect(),
        state,
    }
}

fn numbers_of(record: &Record) -> [u64; RECORD_LENGTH] {
    [record.cursor, record.cause, record.error]
}

/// The model behind the refusals of the C interface that a state and places of the right shape may
/// come to.
pub fn model_call(bench: &mut Bench, input: &[u8]) -> u64 {
    if bench.counts().iter().any(|c| *c > LIMIT) {
        return COUNT_OUT_OF_RANGE;
    }
    let mut looked_at = bench.places.iter().take(MOST_TAGS);
    if looked_at.any(|(from, size)| *from > LIMIT || *size > LIMIT) {
        return PLACES_OUT_OF_RANGE;
    }
    bench.call(input)
}

/// Gives the model what the proved bench has behind the records held: after a record was added, and
/// after an acknowledge, the paper leaves it free.
pub fn take_over_behind(proved: &Packed, bench: &mut Bench) {
    let (lent, _) = proved.records.as_chunks();
    let behind = bench.records.iter_mut().zip(lent).skip(bench.held as usize);
    for (record, [cursor, cause, error]) in behind {
        *record = Record {
            cursor: *cursor,
            cause: *cause,
            error: *error,
        };
    }
}

/// Where the proved bench and the model stand apart, if they do. The whole of the lists is looked at: for
/// what is free in them see [`take_over_behind`]. `selection` is what the 39 bytes are
/// to be: the model knows only those that count.
pub fn difference(
    proved: &Packed,
    bench: &Bench,
    selection: &[u8; SELECTION_LENGTH],
) -> Option<&'static str> {
    let places = || bench.places.iter().flat_map(|p| [p.0, p.1]);
    let records = || bench.records.iter().flat_map(numbers_of);
    let fields = [
        ("memory", proved.memory == bench.memory),
        ("output", proved.output == bench.output),
        ("places", proved.places.iter().copied().eq(places())),
        ("selection", proved.selection == *selection),
        ("records", proved.records.iter().copied().eq(records())),
        ("number of numbers", proved.state.len() == STATE_LENGTH),
        ("cursor", proved.state[CURSOR] == bench.cursor),
        ("counts", proved.state[COUNTS] == bench.counts()),
        ("length", proved.state[LENGTH] == bench.length),
        ("reason", proved.state[REASON] == bench.reason),
        ("next", proved.state[NEXT] == bench.next),
        (
            "selected",
            proved.state[SELECTED] == bench.selection.len() as u64,
        ),
        ("held", proved.state[HELD] == bench.held),
    ];
    fields
        .into_iter()
        .find(|(_, same)| !same)
        .map(|(name, _)| name)
}
