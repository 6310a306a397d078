//! Windows, panels and pads of curses, over a proved library.
//!
//! A [`Screen`] keeps windows, a stack of panels, and a virtual screen. Calls by the names of
//! X/Open Curses and of panel(3) change them, and [`doupdate`](Screen::doupdate) writes the bytes
//! that show what changed, for a terminal like xterm:
//!
//! ```
//! use curspan::{Attributes, Screen, STDSCR};
//!
//! # fn main() -> Result<(), curspan::Error> {
//! let mut screen = Screen::new(Vec::new(), 24, 80)?;
//! screen.waddstr(STDSCR, "a question is on top of this")?;
//!
//! let question = screen.newwin(3, 20, 10, 30)?;
//! screen.wbkgdset(question, Attributes::REVERSE, ' ')?;
//! screen.werase(question)?;
//! screen.mvwaddstr(question, 1, 2, "Really?")?;
//! screen.new_panel(question)?;
//!
//! screen.update_panels();
//! screen.doupdate()?;
//! let bytes: &[u8] = screen.writer();
//! # assert!(bytes.starts_with(b"\x1b["));
//! # Ok(())
//! # }
//! ```
//!
//! Over `std::io::stdout()` these bytes go to the terminal. A [`Terminal`](terminal::Terminal) reads
//! keys and has a screen of its size.
//!
//! # What is proved
//!
//! Of the library below, which this crate links, every function is proved to do what it promises:
//! among that, that any terminal which reads the bytes shows the windows, whatever was called, and
//! that a `doupdate` which succeeds repairs what failed writes left. This crate is tested: scripts
//! by chance give the same bytes, answers and refusals through it as through the library's own
//! command.
//!
//! # Linking
//!
//! The build script takes `libcurspan.a` from the folder that the variable `CURSPAN_LIB_DIR` names,
//! or from `lib/` of the one that `CURSPAN_PREFIX` names, or else the crate's own; where only the
//! shared library is there, it takes that. It doesn't ask pkg-config.
#![deny(unsafe_code)]
#![warn(missing_docs, clippy::pedantic)]

#[macro_use]
mod bits;
#[macro_use]
mod written_functions;

mod attributes;
mod cells;
mod drawing;
mod error;
mod handles;
mod keys;
mod queries;
mod refusal;
mod screen;
#[allow(unsafe_code)]
mod sys;
pub mod terminal;
mod text;
mod written_calls;
mod written_refusal;

pub use attributes::Attributes;
pub use cells::{Cell, Color, ShownCell};
pub use error::Error;
pub use handles::{Pad, Panel, Window, STDSCR};
pub use screen::Screen;
pub use text::{plain, WindowWriter};
pub use written_refusal::Refusal;

// The examples of the page on the crate run too.
#[doc = include_str!("../README.md")]
#[cfg(doctest)]
struct Page;
