//! Buffers that notice when something beside them is written.

use reference::generator::Generator;

/// Odd, so that a lent part isn't aligned for anything larger than its items.
const GUARD: usize = 33;

/// A lent part with items before and after it that nobody may write.
pub struct Guarded<Item = u8> {
    items: Vec<Item>,
    before_call: Vec<Item>,
}

/// What buffers hold.
pub trait Arbitrary: Copy + PartialEq {
    fn arbitrary(generator: &mut Generator) -> Self;
}

impl Arbitrary for u8 {
    fn arbitrary(generator: &mut Generator) -> u8 {
        generator.byte()
    }
}

impl Arbitrary for u16 {
    fn arbitrary(generator: &mut Generator) -> u16 {
        generator.sixteen_bits()
    }
}

impl<Item: Arbitrary> Guarded<Item> {
    /// The guards are arbitrary, so that writing one constant is noticed.
    pub fn around(generator: &mut Generator, lent: &[Item]) -> Guarded<Item> {
        let mut guard =
            || -> Vec<Item> { (0..GUARD).map(|_| Item::arbitrary(generator)).collect() };
        let (front, back) = (guard(), guard());
        let items = [front.as_slice(), lent, back.as_slice()].concat();
        Guarded {
            before_call: items.clone(),
            items,
        }
    }

    pub fn lent(&self) -> &[Item] {
        &self.items[GUARD..self.items.len() - GUARD]
    }

    pub fn lent_mut(&mut self) -> &mut [Item] {
        let end = self.items.len() - GUARD;
        &mut self.items[GUARD..end]
    }

    pub fn is_unchanged(&self) -> bool {
        self.items == self.before_call
    }

    pub fn guards_are_unchanged(&self) -> bool {
        let end = self.items.len() - GUARD;
        self.items[..GUARD] == self.before_call[..GUARD]
            && self.items[end..] == self.before_call[end..]
    }
}
