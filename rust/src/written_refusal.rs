//! The refusals and what they say. Written by tools/calls from calls.table.
#![forbid(unsafe_code)]

/// Why a call is refused.
///
/// A refused call changes nothing and sends nothing. Where several reasons hold, the call's
/// documentation has the order of its tests.
#[derive(Clone, Copy, PartialEq, Eq, Hash, Debug)]
#[non_exhaustive]
pub enum Refusal {
    /// There is no such window or pad.
    NoSuchWindow = 1,
    /// There is no such panel.
    NoSuchPanel = 2,
    /// A part would lie off the screen, or there would be no cell.
    OffScreen = 3,
    /// A derived window or pad would not lie inside its parent, or have no cell.
    OutsideParent = 4,
    /// The window has no such place, line or rectangle.
    OutsideWindow = 5,
    /// A window or pad derives from this one.
    HasDerived = 6,
    /// The window is in a panel.
    InPanel = 7,
    /// The call is not for pads.
    IsPad = 8,
    /// The call is for pads alone.
    NotPad = 9,
    /// The call is for windows and pads that derive from another one.
    NotDerived = 10,
    /// A screen or a pad has no such size.
    BadSize = 11,
    /// The region's first line is after its last, or the window has no such line.
    BadRegion = 12,
    /// The character is none that the call takes.
    BadCharacter = 13,
    /// The call is not for the standard screen.
    StandardScreen = 14,
    /// The panel is hidden.
    Hidden = 15,
    /// The window doesn't scroll.
    ScrollingOff = 16,
    /// There are 1000 windows and pads besides the standard screen, or 1000 panels.
    TooMany = 17,
    /// There is no memory for it.
    NoMemory = 18,
    /// A rectangle's first line or column is after its last.
    BadRectangle = 19,
    /// There is no such colour pair or colour, or pair 0 was to be set.
    BadPair = 20,
}

/// What each says, in the order of their numbers.
pub(crate) const TEXTS: [(Refusal, &str); 20] = [
    (Refusal::NoSuchWindow, "there is no such window or pad"),
    (Refusal::NoSuchPanel, "there is no such panel"),
    (
        Refusal::OffScreen,
        "a part would lie off the screen, or there would be no cell",
    ),
    (
        Refusal::OutsideParent,
        "a derived window or pad would not lie inside its parent, or have no cell",
    ),
    (
        Refusal::OutsideWindow,
        "the window has no such place, line or rectangle",
    ),
    (Refusal::HasDerived, "a window or pad derives from this one"),
    (Refusal::InPanel, "the window is in a panel"),
    (Refusal::IsPad, "the call is not for pads"),
    (Refusal::NotPad, "the call is for pads alone"),
    (
        Refusal::NotDerived,
        "the call is for windows and pads that derive from another one",
    ),
    (Refusal::BadSize, "a screen or a pad has no such size"),
    (
        Refusal::BadRegion,
        "the region's first line is after its last, or the window has no such line",
    ),
    (
        Refusal::BadCharacter,
        "the character is none that the call takes",
    ),
    (
        Refusal::StandardScreen,
        "the call is not for the standard screen",
    ),
    (Refusal::Hidden, "the panel is hidden"),
    (Refusal::ScrollingOff, "the window doesn't scroll"),
    (
        Refusal::TooMany,
        "there are 1000 windows and pads besides the standard screen, or 1000 panels",
    ),
    (Refusal::NoMemory, "there is no memory for it"),
    (
        Refusal::BadRectangle,
        "a rectangle's first line or column is after its last",
    ),
    (
        Refusal::BadPair,
        "there is no such colour pair or colour, or pair 0 was to be set",
    ),
];
