//! Section "Patch layout".

use crate::bytes::{push_count, push_position, Reader};
use crate::limits::{is_number, is_site, PATCH_BYTES, SITES, TEXT};
use crate::position::Position;
use std::collections::BTreeMap;

const KIND_INSERT: u8 = 1;
const KIND_DELETE: u8 = 2;

/// What a patch does at its place.
#[derive(Clone, Debug, PartialEq, Eq)]
pub enum Edit {
    /// Puts in a line of this text.
    Insert(Vec<u8>),
    /// Takes out the line of this number.
    Delete(u32),
}

/// A patch once read.
#[derive(Clone, Debug, PartialEq, Eq)]
pub struct Patch {
    /// The site that made the edit.
    pub author: u8,
    /// Its number among the author's patches, from 1.
    pub number: u32,
    /// What the author had received: all its counts that are not zero.
    pub before: BTreeMap<u8, u32>,
    /// The position put in or struck.
    pub place: Position,
    /// The one edit.
    pub edit: Edit,
}

impl Patch {
    /// Takes the first patch off a run of bytes, and says how many bytes it
    /// used. `None` if it is malformed.
    pub fn read(bytes: &[u8]) -> Option<(Patch, usize)> {
        let mut reader = Reader::new(bytes);
        let kind = reader.byte()?;
        let author = reader.byte()?;
        let number = reader.long()?;
        let before = read_before(&mut reader)?;
        let identifiers = usize::from(reader.byte()?);
        let place = reader.position(identifiers)?;
        let edit = read_edit(&mut reader, kind)?;
        let patch = Patch {
            author,
            number,
            before,
            place,
            edit,
        };
        patch.is_well_formed().then(|| (patch, reader.used()))
    }

    /// The patch as bytes; `None` for one that no bytes would read as.
    pub fn write(&self) -> Option<Vec<u8>> {
        if !self.is_well_formed() {
            return None;
        }
        let kind = match self.edit {
            Edit::Insert(_) => KIND_INSERT,
            Edit::Delete(_) => KIND_DELETE,
        };
        let mut out = Vec::with_capacity(PATCH_BYTES);
        out.extend_from_slice(&[kind, self.author]);
        out.extend_from_slice(&self.number.to_be_bytes());
        push_count(&mut out, self.before.len());
        for (&site, &count) in &self.before {
            out.push(site);
            out.extend_from_slice(&count.to_be_bytes());
        }
        push_count(&mut out, self.place.identifiers().len());
        push_position(&mut out, &self.place);
        match &self.edit {
            Edit::Insert(text) => {
                push_count(&mut out, text.len());
                out.extend_from_slice(text);
            }
            Edit::Delete(line) => {
                let number = line.to_be_bytes();
                push_count(&mut out, number.len());
                out.extend_from_slice(&number);
            }
        }
        Some(out)
    }

    /// All ranges hold, and so do the rules that tie one section to another.
    fn is_well_formed(&self) -> bool {
        is_site(self.author)
            && is_number(self.number)
            && self.before.keys().all(|&site| is_site(site))
            && self.before.values().all(|&count| is_number(count))
            && self.own_entry_is_right()
            && self.place.is_of_line()
            && self.edit_is_right()
    }

    /// The author's own entry is number - 1, and is absent exactly when number
    /// is 1.
    fn own_entry_is_right(&self) -> bool {
        let entry = self.before.get(&self.author).copied();
        let wanted = self.number.checked_sub(1).filter(|&count| count != 0);
        entry == wanted
    }

    /// An insert's place ends in its author's site. A delete's Before has an
    /// entry for the place's last site, at least the line number. Reading of the
    /// document: a line's number is a patch number, so 0 is malformed.
    fn edit_is_right(&self) -> bool {
        let last_site = self.place.author();
        match &self.edit {
            Edit::Insert(text) => text.len() <= TEXT && last_site == self.author,
            Edit::Delete(line) => {
                let entry = self.before.get(&last_site);
                is_number(*line) && entry.map_or(false, |count| count >= line)
            }
        }
    }
}

/// 0 to 16 entries of site (1) and count (4), sites rising strictly.
fn read_before(reader: &mut Reader) -> Option<BTreeMap<u8, u32>> {
    let entries = reader.byte()?;
    if entries > SITES {
        return None;
    }
    let mut before = BTreeMap::new();
    let mut highest = 0;
    for _ in 0..entries {
        let site = reader.byte()?;
        let count = reader.long()?;
        if site <= highest {
            return None;
        }
        highest = site;
        before.insert(site, count);
    }
    Some(before)
}

/// Line: for an insert the text, for a delete always 4 bytes.
fn read_edit(reader: &mut Reader, kind: u8) -> Option<Edit> {
    let length = usize::from(reader.byte()?);
    match kind {
        KIND_INSERT if length <= TEXT => Some(Edit::Insert(reader.take(length)?.to_vec())),
        KIND_DELETE if length == 4 => Some(Edit::Delete(reader.long()?)),
        _ => None,
    }
}
