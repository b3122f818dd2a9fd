//! Numbers, lists and lengths out of the fuzzer's bytes. Where the bytes end all are 0.
use compare::papers::{MOST_LENGTH, node_count};
use mogtriz::raw::Session;

pub struct Input<'a>(pub &'a [u8]);

/// Longer buffers are cut, as they would take the time of many other calls.
pub const MOST_BYTES: usize = 20_000;

impl<'a> Input<'a> {
    pub fn is_empty(&self) -> bool {
        self.0.is_empty()
    }

    pub fn byte(&mut self) -> u8 {
        self.part(1).first().copied().unwrap_or(0)
    }

    /// So many bytes, or as many as there are.
    pub fn part(&mut self, length: usize) -> &'a [u8] {
        let (part, rest) = self.0.split_at(length.min(self.0.len()));
        self.0 = rest;
        part
    }

    /// A small number for the most part, else one near the largest L, one that is near 0 once cut to 8, 16 or 32 bits, or any.
    pub fn number(&mut self) -> usize {
        match self.byte() {
            249 => MOST_LENGTH - 128 + usize::from(self.byte()),
            250 => (1 << 8) + usize::from(self.byte()),
            251 => (1 << 16) + usize::from(self.byte()),
            252 => (1 << 32) + usize::from(self.byte()),
            253 => usize::MAX - usize::from(self.byte()),
            254 => u16::from_le_bytes([self.byte(), self.byte()]).into(),
            255 => usize::from_le_bytes(std::array::from_fn(|_| self.byte())),
            small => small.into(),
        }
    }

    /// This length for the most part, else one near it or any short one.
    pub fn length_near(&mut self, exact: usize) -> usize {
        let length = match self.byte() {
            200 => self.byte().into(),
            tag @ 201..=228 => exact.saturating_sub(usize::from(tag - 200)),
            tag @ 229.. => exact + usize::from(tag - 228),
            _ => exact,
        };
        length.min(MOST_BYTES)
    }

    /// The nodes that a session asks for, or another length.
    pub fn nodes_len(&mut self, session: &Session) -> usize {
        self.length_near(nodes_len(session))
    }

    /// A list by its numbers, in any order, or strictly rising by a byte for each eight nodes.
    pub fn list(&mut self) -> Vec<u8> {
        let length = usize::from(self.byte());
        if length < 128 {
            return self.part(length).to_vec();
        }
        let bits = self.part((length - 128).min(32));
        let named = |&node: &u8| {
            bits.get(usize::from(node / 8))
                .is_some_and(|byte| byte >> (node % 8) & 1 == 1)
        };
        (0..=255).filter(named).collect()
    }
}

fn nodes_len(session: &Session) -> usize {
    match (session.family, session.k) {
        (1, 2..=8) | (2, 2..=22) | (3, 4) => {
            node_count(session.family, session.k).saturating_mul(session.len)
        }
        _ => 0,
    }
}
