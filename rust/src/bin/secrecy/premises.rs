//! Which premise a run leaves out.

#[derive(Clone, Copy, Debug, PartialEq, Eq)]
pub enum Dropped {
    None,
    AccessPasswordCarried,
    KillPasswordCarried,
    KillRegionUnlocked,
    AccessRegionUnlocked,
    /// Zero is then not counted as carried either: as long as it is, every access password that
    /// comes is wrong for both images, and nothing shows.
    AccessPasswordZero,
    KillPasswordZero,
    DifferElsewhere,
    OtherSelection,
    OtherTagsToHandOut,
    OtherRoom,
    /// The list of one run does not start empty.
    RecordsAtTheStart,
}

impl Dropped {
    pub const EACH: [Dropped; 11] = [
        Dropped::AccessPasswordCarried,
        Dropped::KillPasswordCarried,
        Dropped::KillRegionUnlocked,
        Dropped::AccessRegionUnlocked,
        Dropped::AccessPasswordZero,
        Dropped::KillPasswordZero,
        Dropped::DifferElsewhere,
        Dropped::OtherSelection,
        Dropped::OtherTagsToHandOut,
        Dropped::OtherRoom,
        Dropped::RecordsAtTheStart,
    ];
}
