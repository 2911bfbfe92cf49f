//! The page that a folder is to give, by the model.

use crate::folder::{Entry, Folder};
use poldrisk::model::sheet::{NoSheet, Run, UNREADABLE};

pub enum Outcome {
    Sheet(Run),
    None(NoSheet),
    /// "one of the files can be opened, but not read to its end"
    Unreadable,
}

pub struct Expected {
    pub outcome: Outcome,
    pub page: String,
}

impl Expected {
    pub fn of(folder: &Folder) -> Expected {
        let tags = folder.tags();
        // no paper says which comes first where another file is too long: such a folder is not drawn
        if folder.commands == Entry::Directory || tags.contains(&Entry::Directory) {
            return Expected {
                outcome: Outcome::Unreadable,
                page: UNREADABLE.to_string(),
            };
        }
        let commands = folder.commands.bytes();
        let tags: Vec<_> = tags.iter().map(|tag| tag.bytes().to_vec()).collect();
        match Run::of(commands, &tags) {
            Ok(run) => Expected {
                page: run.sheet(commands.len(), &tags, folder.is_crate()),
                outcome: Outcome::Sheet(run),
            },
            Err(none) => Expected {
                page: none.line(),
                outcome: Outcome::None(none),
            },
        }
    }
}
