//! The proved calls and the model side by side on one image, for tests that make their own calls.

use std::collections::BTreeMap;

use nffs_model::compare::{Call, Case, Model, Side};
use nffs_model::forge::Flash;
use nffs_model::layout::NONE;

use crate::Proved;

/// Both engines, each on its own image, and how often each number was answered.
#[derive(Clone)]
pub struct Two {
    pub ours: Side,
    pub model: Side,
    pub numbers: BTreeMap<(&'static str, u32), u32>,
}

impl Two {
    pub fn of(flash: &Flash) -> Two {
        let side = Side::new(&Case { image: flash.image.clone(), areas: flash.areas.clone(), calls: Vec::new() });
        Two { ours: side.clone(), model: side, numbers: BTreeMap::new() }
    }

    /// The same answer, image and buffer of both. A refused call changes no byte.
    #[track_caller]
    pub fn call(&mut self, call: &Call) -> Vec<u32> {
        let before = self.ours.image.clone();
        let (answer, expected) = (self.ours.perform(&Proved, call), self.model.perform(&Model, call));
        assert_eq!(answer, expected, "{call:?}");
        assert!(self.ours.image == self.model.image && self.ours.buffer == self.model.buffer, "{call:?}");
        if let Some(number) = answer.first() {
            assert!(*number == 0 || self.ours.image == before, "{call:?}: refusal {number} changed the image");
            *self.numbers.entry((call.name(), *number)).or_default() += 1;
        }
        answer
    }

    #[track_caller]
    pub fn rename(&mut self, base: &[u8], old: &[u8], new: &[u8]) -> u32 {
        self.call(&Call::Rename { base: base.to_vec(), old: old.to_vec(), new: new.to_vec() })[0]
    }

    /// By an absolute path.
    #[track_caller]
    pub fn overwrite(&mut self, path: &[u8], offset: u32, data: &[u8]) -> u32 {
        self.call(&Call::Overwrite { base: Vec::new(), path: path.to_vec(), offset, data: data.to_vec() })[0]
    }

    /// What a read of so many bytes gives of a file from its start on.
    #[track_caller]
    pub fn read(&mut self, id: u32, length: usize) -> Vec<u8> {
        let answer = self.call(&Call::ReadAt { id, position: 0, length });
        assert_eq!(answer[0], 0, "read of {id:x}");
        self.ours.buffer[..answer[1] as usize].to_vec()
    }

    /// The text of a listing, in a buffer as long as it is.
    #[track_caller]
    pub fn tree(&mut self) -> Vec<u8> {
        let none = self.call(&Call::Tree { length: 0 });
        assert_eq!(none[0], 0, "tree");
        assert_eq!(self.call(&Call::Tree { length: none[1] as usize }), none);
        self.ours.buffer.clone()
    }

    pub fn count(&self, call: &'static str, number: u32) -> u32 {
        *self.numbers.get(&(call, number)).unwrap_or(&0)
    }
}

/// What is left of the area is filled but for so many bytes, by blocks that belong to nothing.
pub fn leave(flash: &mut Flash, area: usize, bytes: usize) {
    for id in (0x9000_0000 + 16 * area as u32).. {
        let data = match flash.room(area) - bytes {
            0 => break,
            rest @ ..=2072 => rest - 24,
            // what remains has room for another
            rest => (rest - 24 - 100).min(2048),
        };
        assert!(flash.block(area, id, 0, 0x7000_0000, NONE, &vec![7; data]));
    }
    assert_eq!(flash.room(area), bytes);
}
