//! How often each way through the rules was taken, and each thing that a Lock may ask of a region.

use super::branches::{Branch, BRANCHES};
use super::locking::Field;
use super::locks::REGIONS;
use std::sync::atomic::{AtomicU64, Ordering};

/// What a Lock asks beside one region's field.
#[derive(Clone, Copy)]
enum Company {
    /// No other region is masked.
    Alone,
    /// No other region refuses, and the pair of one would change.
    BesideAChange,
    /// Another region refuses the command.
    BesideARefusal,
}

const COMPANIES: [&str; 3] = ["ALONE", "BESIDE_A_CHANGE", "BESIDE_A_REFUSAL"];
const REGION_NAMES: [&str; REGIONS.len()] = ["KILL", "ACCESS", "EPC", "TID", "USER"];
/// Old pair, mask and action of a region: two bits each.
const FIELDS: usize = 64;
const LOCKS: usize = REGIONS.len() * COMPANIES.len() * FIELDS;

static HITS: [AtomicU64; BRANCHES.len()] = [const { AtomicU64::new(0) }; BRANCHES.len()];
static LOCK_HITS: [AtomicU64; LOCKS] = [const { AtomicU64::new(0) }; LOCKS];

pub fn add(branch: Branch) {
    HITS[branch as usize].fetch_add(1, Ordering::Relaxed);
}

/// Counts what a Lock asks of each region, with the pairs that come out of it.
pub fn add_lock(fields: &[Field; REGIONS.len()], pairs: &[Option<usize>; REGIONS.len()]) {
    for (region, field) in fields.iter().enumerate() {
        if let Some(company) = company(fields, pairs, region) {
            let asked = field.old << 4 | field.mask << 2 | field.action;
            let place = (region * COMPANIES.len() + company as usize) * FIELDS + asked;
            LOCK_HITS[place].fetch_add(1, Ordering::Relaxed);
        }
    }
}

/// None where others are masked and come to nothing: that is not counted apart.
fn company(
    fields: &[Field; REGIONS.len()],
    pairs: &[Option<usize>; REGIONS.len()],
    region: usize,
) -> Option<Company> {
    let others = || (0..REGIONS.len()).filter(move |other| *other != region);
    if others().all(|other| fields[other].mask == 0) {
        return Some(Company::Alone);
    }
    if others().any(|other| pairs[other].is_none()) {
        return Some(Company::BesideARefusal);
    }
    let changes = others().any(|other| pairs[other] != Some(fields[other].old));
    changes.then_some(Company::BesideAChange)
}

/// The name of what stands at this place among the counted locks: old pair, mask and action in bits.
fn lock_name(place: usize) -> String {
    let (rest, asked) = (place / FIELDS, place % FIELDS);
    let region = REGION_NAMES[rest / COMPANIES.len()];
    let company = COMPANIES[rest % COMPANIES.len()];
    let (old, mask, action) = (asked >> 4, asked >> 2 & 3, asked & 3);
    format!("LOCK_{region}_{old:02b}_{mask:02b}_{action:02b}_{company}")
}

/// Every counted thing by name, and how often it came since the program started.
pub fn read() -> Vec<(String, u64)> {
    let names = BRANCHES.iter().map(|name| name.to_string());
    let names = names.chain((0..LOCKS).map(lock_name));
    let counts = HITS.iter().chain(&LOCK_HITS);
    names
        .zip(counts.map(|h| h.load(Ordering::Relaxed)))
        .collect()
}
