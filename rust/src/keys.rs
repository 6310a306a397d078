//! What a terminal tells of: keys, pasted texts and new sizes, as values.
#![forbid(unsafe_code)]

use crate::sys;
use std::str::FromStr;
use std::{error, fmt};

/// What came at a terminal. Only a key that was pressed is a [`Key`]: a pasted `q` is none.
#[derive(Clone, PartialEq, Eq, Hash, Debug)]
#[non_exhaustive]
pub enum Event {
    /// A key was pressed.
    Key(Key),
    /// A text was pasted, or a part of one.
    Paste(Paste),
    /// A sequence that is no key's, or bytes that are no UTF-8.
    Unknown(Vec<u8>),
    /// The size is another, or the terminal was given back meanwhile: all is to be shown again.
    Resize,
}

/// A text that was pasted, or a part of one that pauses for a second or is long.
#[derive(Clone, PartialEq, Eq, Hash, Debug)]
pub struct Paste {
    /// The bytes, of which newlines end lines.
    pub text: Vec<u8>,
    /// Whether the text ends here; else more of it comes by the next one.
    pub is_ended: bool,
}

/// A key, by its code and by the modifiers that the terminal sends with it: Ctrl-A is `a` with
/// [`Modifiers::CTRL`].
///
/// It equals a character or a [`Code`] where it has no modifiers. It is shown by its name, which
/// can be parsed: the character, or its code's name, with `ctrl+`, `alt+` and `shift+` before it in
/// this order.
///
/// ```
/// use curspan::terminal::{Code, Key, Modifiers};
///
/// const SAVE: Key = Code::Char('s').with(Modifiers::CTRL);
/// assert_eq!(SAVE.to_string(), "ctrl+s");
/// assert_eq!("ctrl+s".parse(), Ok(SAVE));
/// assert!(SAVE != 's' && SAVE.code == Code::Char('s'));
/// assert!("pagedown".parse::<Key>()? == Code::PageDown);
/// # Ok::<(), curspan::terminal::NoSuchKey>(())
/// ```
#[derive(Clone, Copy, PartialEq, Eq, Hash, Debug)]
pub struct Key {
    /// Which key it is.
    pub code: Code,
    /// What was held with it.
    pub modifiers: Modifiers,
}

/// Declares the codes, of which those with names are in the order of `curspan_terminal.h`.
macro_rules! codes {
    ($($name:ident)*) => {
        /// Which key it is: a character, F1 and so on, or one with a name. Those from `Begin` on
        /// are of the keypad.
        ///
        /// ```compile_fail,E0599
        /// let code = curspan::terminal::Code::Pagedown;
        /// ```
        #[derive(Clone, Copy, PartialEq, Eq, Hash, Debug)]
        #[non_exhaustive]
        #[allow(missing_docs)]
        pub enum Code {
            Char(char),
            F(u8),
            $($name,)*
        }

        const NAMED: &[Code] = &[$(Code::$name),*];
    };
}

codes! {
    Enter Tab Escape Backspace Up Down Left Right Home End PageUp PageDown Insert Delete
    Begin A1 A3 B2 C1 C3
}

/// A set of modifiers.
///
/// ```
/// use curspan::terminal::Modifiers;
///
/// let both = Modifiers::CTRL | Modifiers::SHIFT;
/// assert!(both.contains(Modifiers::CTRL));
/// assert_eq!(format!("{both:?}"), "CTRL | SHIFT");
/// ```
#[derive(Clone, Copy, PartialEq, Eq, Hash, Default)]
pub struct Modifiers(u8);

impl Modifiers {
    /// No modifier.
    pub const NONE: Modifiers = Modifiers(0);
    /// Shift.
    pub const SHIFT: Modifiers = Modifiers(1);
    /// Alt.
    pub const ALT: Modifiers = Modifiers(2);
    /// Control.
    pub const CTRL: Modifiers = Modifiers(4);
    /// All three.
    pub const ALL: Modifiers = Modifiers(7);

    const NAMED: [(Modifiers, &'static str); 3] = [
        (Modifiers::CTRL, "CTRL"),
        (Modifiers::ALT, "ALT"),
        (Modifiers::SHIFT, "SHIFT"),
    ];
}

set_of_bits! { Modifiers }

/// There is no key of a name.
#[derive(Clone, Copy, PartialEq, Eq, Debug)]
pub struct NoSuchKey;

impl Code {
    /// The key of this code with some modifiers.
    #[must_use]
    pub const fn with(self, modifiers: Modifiers) -> Key {
        Key {
            code: self,
            modifiers,
        }
    }

    /// The codes that aren't characters, with their numbers in C.
    fn numbered() -> impl Iterator<Item = (u32, Code)> {
        let functions = (0..=u8::MAX).map(Code::F);
        (sys::FIRST_NAMED..).zip(NAMED.iter().copied().chain(functions))
    }

    /// The code of a number of C, if it is one.
    fn of_number(number: u32) -> Option<Code> {
        let numbered = || Code::numbered().find(|it| it.0 == number);
        let character = char::from_u32(number).map(Code::Char);
        character.or_else(|| numbered().map(|it| it.1))
    }

    fn number(self) -> u32 {
        match self {
            Code::Char(character) => character.into(),
            _ => Code::numbered()
                .find(|it| it.1 == self)
                .map_or(0, |it| it.0),
        }
    }
}

impl Key {
    /// The key of numbers of C, if its code is one.
    pub(crate) fn of_numbers(code: u32, modifiers: u32) -> Option<Key> {
        Code::of_number(code).map(|code| code.with(Modifiers::of_bits(modifiers)))
    }
}

impl From<Code> for Key {
    fn from(code: Code) -> Key {
        code.with(Modifiers::NONE)
    }
}

impl PartialEq<Code> for Key {
    fn eq(&self, code: &Code) -> bool {
        *self == Key::from(*code)
    }
}

impl PartialEq<char> for Key {
    fn eq(&self, character: &char) -> bool {
        *self == Code::Char(*character)
    }
}

impl fmt::Display for Key {
    fn fmt(&self, f: &mut fmt::Formatter<'_>) -> fmt::Result {
        f.pad(&sys::key_name(self.code.number(), self.modifiers.bits()))
    }
}

impl FromStr for Key {
    type Err = NoSuchKey;

    fn from_str(name: &str) -> Result<Key, NoSuchKey> {
        let (mut rest, mut modifiers) = (name, Modifiers::NONE);
        for (modifier, _) in Modifiers::NAMED {
            // As `ctrl+` of `ctrl++`.
            let begin = sys::key_name('+'.into(), modifier.bits());
            if let Some(after) = rest.strip_prefix(&begin[..begin.len() - 1]) {
                (rest, modifiers) = (after, modifiers | modifier);
            }
        }
        let character = rest.chars().next().filter(|it| !it.is_control());
        let named = Code::numbered().map(|it| it.1);
        let codes = character.map(Code::Char).into_iter().chain(named);
        let mut keys = codes.map(|code| code.with(modifiers));
        keys.find(|key| key.to_string() == name).ok_or(NoSuchKey)
    }
}

impl fmt::Display for NoSuchKey {
    fn fmt(&self, f: &mut fmt::Formatter<'_>) -> fmt::Result {
        f.write_str("there is no key of that name")
    }
}

impl error::Error for NoSuchKey {}
