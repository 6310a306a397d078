#![forbid(unsafe_code)]

/// A set of attributes of characters.
///
/// ```
/// use curspan::Attributes;
///
/// let title = Attributes::BOLD | Attributes::REVERSE;
/// assert!(title.contains(Attributes::BOLD));
/// assert_eq!(format!("{title:?}"), "BOLD | REVERSE");
/// assert_eq!(title & !Attributes::BOLD, Attributes::REVERSE);
/// ```
#[derive(Clone, Copy, PartialEq, Eq, Hash, Default)]
pub struct Attributes(u8);

impl Attributes {
    /// No attribute.
    pub const NONE: Attributes = Attributes(0);
    /// Bold, or brighter.
    pub const BOLD: Attributes = Attributes(0x01);
    /// Less bright.
    pub const DIM: Attributes = Attributes(0x02);
    /// Underlined.
    pub const UNDERLINE: Attributes = Attributes(0x04);
    /// Blinking.
    pub const BLINK: Attributes = Attributes(0x08);
    /// In the colours of the ground on those of the text.
    pub const REVERSE: Attributes = Attributes(0x10);
    /// Not to be seen.
    pub const INVIS: Attributes = Attributes(0x20);
    /// All six.
    pub const ALL: Attributes = Attributes(0x3f);

    const NAMED: [(Attributes, &'static str); 6] = [
        (Attributes::BOLD, "BOLD"),
        (Attributes::DIM, "DIM"),
        (Attributes::UNDERLINE, "UNDERLINE"),
        (Attributes::BLINK, "BLINK"),
        (Attributes::REVERSE, "REVERSE"),
        (Attributes::INVIS, "INVIS"),
    ];
}

set_of_bits! { Attributes }
