//! A folder as the program finds it.

use std::fs::{create_dir, create_dir_all, write};
use std::io;
use std::path::Path;

/// What stands in a file's place.
#[derive(Clone, PartialEq, Eq)]
pub enum Entry {
    Missing,
    File(Vec<u8>),
    /// "a folder of that name": it can be opened, but not read.
    Directory,
}

pub struct Folder {
    pub commands: Entry,
    /// tag.img
    pub tag: Entry,
    /// tag-00.img, tag-01.img and so on.
    pub numbered: Vec<Entry>,
}

impl Entry {
    pub fn is_there(&self) -> bool {
        *self != Entry::Missing
    }

    /// "A file that cannot be opened counts as empty"
    pub fn bytes(&self) -> &[u8] {
        match self {
            Entry::File(bytes) => bytes,
            _ => &[],
        }
    }

    fn write(&self, path: &Path) -> io::Result<()> {
        match self {
            Entry::Missing => Ok(()),
            Entry::File(bytes) => write(path, bytes),
            Entry::Directory => create_dir(path),
        }
    }
}

impl Folder {
    /// "A folder is a crate where it has no tag.img and a tag-00.img, tag-01.img and so on"
    pub fn is_crate(&self) -> bool {
        !self.tag.is_there() && self.numbered.iter().any(Entry::is_there)
    }

    /// The files of its tags. "there are as many tags as the highest number says"
    pub fn tags(&self) -> &[Entry] {
        match self.numbered.iter().rposition(Entry::is_there) {
            Some(highest) if self.is_crate() => &self.numbered[..=highest],
            _ => std::slice::from_ref(&self.tag),
        }
    }

    /// The same for a change.
    pub fn tags_mut(&mut self) -> &mut [Entry] {
        let is_crate = self.is_crate();
        match self.numbered.iter().rposition(Entry::is_there) {
            Some(highest) if is_crate => &mut self.numbered[..=highest],
            _ => std::slice::from_mut(&mut self.tag),
        }
    }

    pub fn write(&self, path: &Path) -> io::Result<()> {
        create_dir_all(path)?;
        self.commands.write(&path.join("commands.bin"))?;
        self.tag.write(&path.join("tag.img"))?;
        for (tag, entry) in self.numbered.iter().enumerate() {
            entry.write(&path.join(format!("tag-{tag:02}.img")))?;
        }
        Ok(())
    }
}
