#![forbid(unsafe_code)]

use crate::{Attributes, Refusal};
use std::fmt;

/// One of the eight colours, or the terminal's own.
#[derive(Clone, Copy, PartialEq, Eq, Hash, Debug)]
pub enum Color {
    /// Colour 0.
    Black,
    /// Colour 1.
    Red,
    /// Colour 2.
    Green,
    /// Colour 3.
    Yellow,
    /// Colour 4.
    Blue,
    /// Colour 5.
    Magenta,
    /// Colour 6.
    Cyan,
    /// Colour 7.
    White,
    /// The terminal's own, where a [`Terminal`](crate::terminal::Terminal) gives it to a pair; each
    /// other call refuses it with [`BadPair`](Refusal::BadPair).
    Default,
}

impl Color {
    const ALL: [Color; 8] = [
        Color::Black,
        Color::Red,
        Color::Green,
        Color::Yellow,
        Color::Blue,
        Color::Magenta,
        Color::Cyan,
        Color::White,
    ];
}

impl From<Color> for u32 {
    fn from(color: Color) -> u32 {
        color as u32
    }
}

impl TryFrom<u32> for Color {
    type Error = Refusal;

    /// The colour of a number, or [`BadPair`](Refusal::BadPair) where there is none.
    fn try_from(number: u32) -> Result<Color, Refusal> {
        usize::try_from(number)
            .ok()
            .and_then(|number| Color::ALL.get(number).copied())
            .ok_or(Refusal::BadPair)
    }
}

/// A cell of a window or pad: a character with attributes and the number of a colour pair.
#[derive(Clone, Copy, PartialEq, Eq, Hash)]
#[repr(transparent)]
pub struct Cell(pub(crate) u32);

impl Cell {
    /// A cell, for [`fill`](crate::Screen::fill) and [`put`](crate::Screen::put).
    ///
    /// # Errors
    ///
    /// [`BadCharacter`](Refusal::BadCharacter) for a character outside of the space to the tilde;
    /// [`BadPair`](Refusal::BadPair) for a pair past 63.
    pub fn new(character: char, attributes: Attributes, pair: u32) -> Result<Cell, Refusal> {
        if !(' '..='~').contains(&character) {
            return Err(Refusal::BadCharacter);
        }
        if pair > LAST_PAIR {
            return Err(Refusal::BadPair);
        }
        let bits = u32::from(attributes.bits());
        Ok(Cell(u32::from(character) | bits << 8 | pair << 16))
    }

    /// The character, from the space to the tilde.
    #[must_use]
    pub fn character(self) -> char {
        char::from(byte(self.0, 0))
    }

    /// The attributes.
    #[must_use]
    pub fn attributes(self) -> Attributes {
        Attributes::of_bits(self.0 >> 8)
    }

    /// The colour pair.
    #[must_use]
    pub fn pair(self) -> u32 {
        self.0 >> 16
    }
}

impl Default for Cell {
    /// A space without attributes, of pair 0.
    fn default() -> Cell {
        Cell(u32::from(b' '))
    }
}

impl fmt::Debug for Cell {
    fn fmt(&self, f: &mut fmt::Formatter<'_>) -> fmt::Result {
        f.debug_struct("Cell")
            .field("character", &self.character())
            .field("attributes", &self.attributes())
            .field("pair", &self.pair())
            .finish()
    }
}

/// A cell of the virtual screen: a character with attributes, in the colours that its pair had when
/// it was taken there.
#[derive(Clone, Copy, PartialEq, Eq, Hash)]
#[repr(transparent)]
pub struct ShownCell(pub(crate) u32);

impl ShownCell {
    /// The character, from the space to the tilde.
    #[must_use]
    pub fn character(self) -> char {
        char::from(byte(self.0, 0))
    }

    /// The attributes.
    #[must_use]
    pub fn attributes(self) -> Attributes {
        Attributes::of_bits(self.0 >> 8)
    }

    /// The colour of the text, or none where it is the terminal's own.
    #[must_use]
    pub fn foreground(self) -> Option<Color> {
        Color::try_from(u32::from(byte(self.0, 2))).ok()
    }

    /// The colour of the ground, or none where it is the terminal's own.
    #[must_use]
    pub fn background(self) -> Option<Color> {
        Color::try_from(u32::from(byte(self.0, 3))).ok()
    }
}

impl Default for ShownCell {
    /// A space without attributes, in the terminal's own colours.
    fn default() -> ShownCell {
        ShownCell(u32::from_le_bytes([b' ', 0, OWN, OWN]))
    }
}

impl fmt::Debug for ShownCell {
    fn fmt(&self, f: &mut fmt::Formatter<'_>) -> fmt::Result {
        f.debug_struct("ShownCell")
            .field("character", &self.character())
            .field("attributes", &self.attributes())
            .field("foreground", &self.foreground())
            .field("background", &self.background())
            .finish()
    }
}

const LAST_PAIR: u32 = 63;

/// The number of the terminal's own colours.
const OWN: u8 = 9;

fn byte(bits: u32, place: usize) -> u8 {
    bits.to_le_bytes()[place]
}
