//! Events: an input and an output in one byte.

/// One tick: the input x in the low four bits, the output y in the high four.
///
/// ```
/// use groovepawn::Event;
///
/// let event = Event::new(0b01, 0b10);
/// assert_eq!(event.0, 0x21);
/// assert_eq!((event.input(), event.output()), (0b01, 0b10));
/// ```
#[derive(Clone, Copy, Debug, PartialEq, Eq, Default)]
pub struct Event(pub u8);

impl Event {
    /// The event of an input and an output, each of four bits.
    pub fn new(x: u8, y: u8) -> Event {
        Event((x & 0xf) | (y << 4))
    }

    /// The input.
    pub fn input(self) -> u8 {
        self.0 & 0xf
    }

    /// The output.
    pub fn output(self) -> u8 {
        self.0 >> 4
    }
}
