//! Where a policy is: a location and the clocks.

use crate::call::STATE_LEN;

/// A location and four clock values, unused ones 0. It may be kept over a power cut,
/// and is checked anew by every call.
///
/// ```
/// use groovepawn::State;
///
/// let state = State::from([1, 3, 0, 0, 0]);
/// assert_eq!((state.location(), state.clock(0)), (1, 3));
/// assert_eq!(State::START.numbers(), [0; 5]);
/// ```
#[derive(Clone, Copy, Debug, PartialEq, Eq, Default)]
pub struct State {
    pub(crate) numbers: [u16; STATE_LEN],
}

impl State {
    /// Location 0 with every clock at 0.
    pub const START: State = State {
        numbers: [0; STATE_LEN],
    };

    /// The location.
    pub fn location(self) -> u16 {
        self.numbers[0]
    }

    /// The value of a clock, counted from 0; 0 for a clock that no policy can have.
    pub fn clock(self, clock: usize) -> u16 {
        self.numbers[1..].get(clock).copied().unwrap_or(0)
    }

    /// All five numbers.
    pub fn numbers(self) -> [u16; STATE_LEN] {
        self.numbers
    }
}

impl From<[u16; STATE_LEN]> for State {
    fn from(numbers: [u16; STATE_LEN]) -> State {
        State { numbers }
    }
}
