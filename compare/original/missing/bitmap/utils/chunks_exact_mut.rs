//! `MutableBitmap` names this iterator; none of the compared calls makes one. Nothing is assumed of it.

use super::BitChunk;

pub struct BitChunksExactMut<'a, T: BitChunk>(std::marker::PhantomData<(&'a mut [u8], T)>);

impl<'a, T: BitChunk> BitChunksExactMut<'a, T> {
    pub fn new(_: &'a mut [u8], _: usize) -> Self {
        unimplemented!("not among the files at hand")
    }
}
