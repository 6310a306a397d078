#![forbid(unsafe_code)]

use crate::Refusal;
use std::{error, fmt, io};

/// Why a program ends that makes calls and writes: a [`Refusal`], or an error of its writer or
/// terminal.
///
/// Both become an `Error` by `?`:
///
/// ```
/// use curspan::{Screen, STDSCR};
///
/// fn greet() -> Result<(), curspan::Error> {
///     let mut screen = Screen::new(std::io::stdout(), 24, 80)?;
///     screen.waddstr(STDSCR, "hello")?;
///     screen.update_panels();
///     screen.doupdate()?;
///     Ok(())
/// }
/// # greet().unwrap();
/// ```
#[non_exhaustive]
pub enum Error {
    /// A call was refused.
    Refused(Refusal),
    /// Bytes could not be written, a terminal not be opened, or no key be read.
    Write(io::Error),
}

impl From<Refusal> for Error {
    fn from(refusal: Refusal) -> Error {
        Error::Refused(refusal)
    }
}

impl From<io::Error> for Error {
    fn from(error: io::Error) -> Error {
        Error::Write(error)
    }
}

impl From<Refusal> for io::Error {
    fn from(refusal: Refusal) -> io::Error {
        io::Error::new(io::ErrorKind::Other, refusal)
    }
}

impl From<Error> for io::Error {
    fn from(error: Error) -> io::Error {
        match error {
            Error::Refused(refusal) => refusal.into(),
            Error::Write(error) => error,
        }
    }
}

impl fmt::Display for Error {
    fn fmt(&self, f: &mut fmt::Formatter<'_>) -> fmt::Result {
        match self {
            Error::Refused(refusal) => refusal.fmt(f),
            Error::Write(error) => error.fmt(f),
        }
    }
}

/// The sentence too, which a `main` that answers the error tells.
impl fmt::Debug for Error {
    fn fmt(&self, f: &mut fmt::Formatter<'_>) -> fmt::Result {
        fmt::Display::fmt(self, f)
    }
}

impl error::Error for Error {
    fn source(&self) -> Option<&(dyn error::Error + 'static)> {
        match self {
            Error::Refused(_) => None,
            Error::Write(error) => error.source(),
        }
    }
}
