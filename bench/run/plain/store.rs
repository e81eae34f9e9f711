//! What the book asks of a store of speculative epochs.
use crate::image::Image;

/// A set of cores, by their numbers' bits.
pub type Cores = u32;

/// What came of a speculative access: it is made and hurt these cores, or the core has to come again.
pub enum Step {
    Done { value: u32, hurt: Cores },
    Wait,
}

pub trait Store: Send {
    fn new(image: &Image, cores: usize) -> Self;

    fn begin(&mut self, core: usize, epoch: u32);

    fn load(&mut self, core: usize, addr: u32, width: u32) -> Step;

    fn store(&mut self, core: usize, addr: u32, width: u32, value: u32) -> Step;

    fn publish(&mut self, core: usize) -> Cores;

    fn straight_load(&mut self, core: usize, addr: u32, width: u32) -> (u32, Cores);

    fn straight_store(&mut self, core: usize, addr: u32, width: u32, value: u32) -> Cores;

    /// The straight attempt ends.
    fn leave(&mut self, core: usize);

    /// The attempt is given up.
    fn cancel(&mut self, core: usize);

    fn committed(&self) -> Vec<u8>;
}
