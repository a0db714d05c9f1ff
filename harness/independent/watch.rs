//! What a run of the machine can be watched for. The comparison counts these events; a run that nobody watches pays nothing.

/// Something that happened in a step.
#[derive(Clone, Copy, PartialEq, Eq, Debug)]
pub enum Event {
    /// The instruction at this address, with this word, is about to be executed.
    Fetched(u16, u16),
    /// The page came from the instruction's own address, which is the last of its page.
    PageEnd,
    /// A pointer at this address was increased.
    AutoIndexed(u16),
    /// A word was stored at this address.
    Stored(u16),
    /// Op 2 found 0, or an op 7 skipped.
    Skipped,
    /// The interrupt test found both registers 1.
    Interrupted,
    /// A step set RUN to 0 with both registers 1.
    HaltedPending,
    /// This word is executed by the machine with devices.
    WithDevices(u16),
    /// An input byte arrived.
    Arrived,
    /// The printer flag rose.
    Risen,
    /// A byte was printed.
    Printed,
    /// The machine with devices is interrupted: whether by the keyboard's flag, and whether by the printer's.
    InterruptedBy(bool, bool),
    /// A step without an interrupt test left INTERRUPT.REQUEST other than the flags.
    RequestStays,
}

pub trait Watch {
    #[inline(always)]
    fn saw(&mut self, _event: Event) {}
}

/// Watches nothing.
pub struct Unwatched;

impl Watch for Unwatched {}
