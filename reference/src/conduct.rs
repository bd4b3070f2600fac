//! Nodes that leave one rule out. They are there so that a search for losses is known to find some.

#[derive(Clone, Copy, Debug, PartialEq, Eq)]
pub enum Conduct {
    /// All rules are kept.
    Rules,
    /// Opening a dispute doesn't freeze the account.
    OpeningDoesNotFreeze,
    /// Passing on doesn't ask whether the out's end is past.
    OnlyTheInsEnd,
    /// After a start the node signs before it has looked.
    SignsBeforeLooking,
    /// A signature back is taken though a dispute was seen.
    SignatureInDispute,
    /// Passing on records the sheet before the lock passed on.
    SheetBeforeLock,
    /// A signature back is recorded and not synced.
    SignatureNotSynced,
    /// Giving up asks whether held has the out, and doesn't look at next.
    GivingUpLooksAtHeld,
    /// Giving up asks whether next has the out, and looks at held only where there is no next.
    GivingUpLooksAtNext,
    /// A key is shown when the in's end is less than `delay` ahead.
    KeysShownLate,
}
