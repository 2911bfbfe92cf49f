//! Kill.

use super::answers::{done, plain_error, tag_error, Answer};
use super::image::{kill_password, password_at};

/// "kill password (4). PL not 4: plain 17. State: plain 12. Stored one zero: D0. Different:
/// plain 12. Else state becomes 1; tail, 00."
pub(super) fn kill(target: Option<&mut [u8]>, parameters: &[u8]) -> Answer {
    if parameters.len() != 4 {
        hit!(KILL_PL);
        return plain_error(0x17);
    }
    // "or answer as with no tag"
    let Some(image) = target else {
        hit!(KILL_NO_TAG);
        return plain_error(0x12);
    };
    let stored = kill_password(image);
    if stored == 0 {
        hit!(KILL_STORED_ZERO);
        return tag_error(0xD0, image);
    }
    if password_at(parameters, 0) != stored {
        hit!(KILL_DIFFERENT);
        return plain_error(0x12);
    }
    hit!(KILL_GOOD);
    image[22] = 1;
    done(0x65, image)
}
