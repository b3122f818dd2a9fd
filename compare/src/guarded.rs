//! Buffers that show what a call wrote, beside them too, and stop a call that reads beside them.
use crate::pages::{Pages, ROOM};
use std::cell::Cell;
use std::hint::black_box;
use std::ops::Range;
use std::sync::LazyLock;

const GUARD: usize = 64;

/// What a buffer holds before it is written, and its guard.
static PATTERN: LazyLock<Vec<u8>> = LazyLock::new(|| {
    let byte = |place: usize| (place * 167 + 13) as u8;
    (0..ROOM).map(byte).collect()
});

/// Bytes to lend, with a guard of bytes on one side and a page that cannot be read on the other.
pub struct Guarded {
    before: Vec<u8>,
    now: Pages,
    lent: Range<usize>,
}

thread_local! {
    static BUFFERS: Cell<u64> = const { Cell::new(0) };
}

/// Whether the next buffer has its guard before it. Of the first and second, the third and fourth and so on, one has; which of the two
/// goes by the number's bits: if buffers took turns, a call that is lent two would always get the same one on the same side.
fn guard_comes_first() -> bool {
    let number = BUFFERS.replace(BUFFERS.get() + 1);
    number.count_ones() % 2 == 1
}

impl Guarded {
    /// A buffer filled with a pattern.
    pub fn filled(len: usize) -> Guarded {
        Guarded::holding(&PATTERN[..len])
    }

    /// A buffer that holds these bytes.
    pub fn holding(bytes: &[u8]) -> Guarded {
        let len = bytes.len();
        let guard = &PATTERN[..GUARD];
        let (before, now, lent) = match guard_comes_first() {
            true => (
                [guard, bytes].concat(),
                Pages::at_end(GUARD + len),
                GUARD..GUARD + len,
            ),
            false => (
                [bytes, guard].concat(),
                Pages::at_start(len + GUARD),
                0..len,
            ),
        };
        let mut buffer = Guarded { before, now, lent };
        buffer.restore();
        buffer
    }

    pub fn bytes(&self) -> &[u8] {
        &self.now.bytes()[self.lent.clone()]
    }

    pub fn bytes_mut(&mut self) -> &mut [u8] {
        &mut self.now.bytes_mut()[self.lent.clone()]
    }

    /// Whether all is as it was when the buffer was made, the guard included.
    pub fn untouched(&self) -> bool {
        // the compiler may not take it that a lent buffer stayed as it was
        *black_box(self.now.bytes()) == self.before
    }

    pub fn guards_untouched(&self) -> bool {
        let now = black_box(self.now.bytes());
        let Range { start, end } = self.lent;
        now[..start] == self.before[..start] && now[end..] == self.before[end..]
    }

    /// Puts back what the buffer held when it was made.
    pub fn restore(&mut self) {
        self.now.bytes_mut().copy_from_slice(&self.before);
    }
}
