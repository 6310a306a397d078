#![forbid(unsafe_code)]

use std::collections::TryReserveError;
use std::sync::atomic::{AtomicU64, Ordering};

/// The number of no window and no panel: each call refuses it.
const NO_NUMBER: u32 = u32::MAX;

/// What names a window or a panel: its number, and a stamp that no other one ever has in this
/// process.
#[derive(Clone, Copy, PartialEq, Eq, Hash, Debug)]
pub(crate) struct Handle {
    number: u32,
    stamp: u64,
}

/// A window or pad of a [`Screen`](crate::Screen).
///
/// It is a small handle, to be copied. Deleting the window makes it stale: then each call refuses
/// it with [`NoSuchWindow`](crate::Refusal::NoSuchWindow), also where a later window got its
/// number. So does each call on another screen, but of [`STDSCR`], which names the standard screen
/// of every one.
///
/// ```
/// use curspan::{Refusal, Screen};
///
/// let mut screen = Screen::new(Vec::new(), 24, 80)?;
/// let old = screen.newwin(3, 20, 0, 0)?;
/// screen.delwin(old)?;
/// let new = screen.newwin(3, 20, 0, 0)?;
/// assert_eq!(old.number(), new.number());
/// assert_eq!(screen.waddstr(old, "hi"), Err(Refusal::NoSuchWindow));
/// # Ok::<(), Refusal>(())
/// ```
#[derive(Clone, Copy, PartialEq, Eq, Hash, Debug)]
pub struct Window(pub(crate) Handle);

/// The standard screen: the window that each [`Screen`](crate::Screen) has from the first, and that
/// covers it.
pub const STDSCR: Window = Window(Handle {
    number: 0,
    stamp: 0,
});

impl Window {
    /// The window's number, as scripts and `curspan.h` have it.
    #[must_use]
    pub const fn number(self) -> u32 {
        self.0.number
    }
}

/// A pad of a [`Screen`](crate::Screen): a window without a place on the screen, of which parts are
/// shown by [`pnoutrefresh`](crate::Screen::pnoutrefresh). Calls that are for windows and pads take
/// it too; those that aren't for pads don't.
///
/// ```
/// use curspan::{Screen, STDSCR};
///
/// let mut screen = Screen::new(Vec::new(), 4, 10)?;
/// let pad = screen.newpad(100, 100)?;
/// screen.mvwaddstr(pad, 50, 0, "far below")?;
/// screen.pnoutrefresh(pad, 50, 0, 0, 0, 3, 9)?;
/// assert_eq!(screen.to_string().lines().next(), Some("far below "));
/// # Ok::<(), curspan::Refusal>(())
/// ```
///
/// ```compile_fail,E0308
/// # let mut screen = curspan::Screen::new(Vec::new(), 4, 10).unwrap();
/// let pad = screen.newpad(100, 100).unwrap();
/// screen.new_panel(pad);
/// ```
#[derive(Clone, Copy, PartialEq, Eq, Hash, Debug)]
pub struct Pad(pub(crate) Handle);

impl Pad {
    /// The pad's number, as scripts and `curspan.h` have it.
    #[must_use]
    pub const fn number(self) -> u32 {
        self.0.number
    }
}

impl From<Pad> for Window {
    fn from(pad: Pad) -> Window {
        Window(pad.0)
    }
}

/// A panel of a [`Screen`](crate::Screen): a window's place in the stack.
///
/// It is a small handle, to be copied. Deleting the panel makes it stale: then each call refuses it
/// with [`NoSuchPanel`](crate::Refusal::NoSuchPanel), as does each call on another screen.
#[derive(Clone, Copy, PartialEq, Eq, Hash, Debug)]
pub struct Panel(pub(crate) Handle);

impl Panel {
    /// The panel's number, as scripts and `curspan.h` have it.
    #[must_use]
    pub const fn number(self) -> u32 {
        self.0.number
    }
}

/// The stamp of what has each number now, windows' or panels'. Number 0, the standard screen's, has
/// the stamp 0, and so has a number that nothing has.
#[derive(Debug)]
pub(crate) struct Stamps(Vec<u64>);

impl Stamps {
    pub(crate) fn new() -> Result<Stamps, TryReserveError> {
        let mut stamps = Vec::new();
        stamps.try_reserve(1)?;
        stamps.push(0);
        Ok(Stamps(stamps))
    }

    /// The number of a handle, or one that each call refuses where the handle is stale or another
    /// screen's.
    #[inline]
    pub(crate) fn number(&self, handle: Handle) -> u32 {
        if handle.stamp == 0 {
            return handle.number; // that of the standard screen, which is always there
        }
        match self.0.get(handle.number as usize) {
            Some(&stamp) if stamp == handle.stamp => handle.number,
            _ => NO_NUMBER,
        }
    }

    /// The handle of what has a number.
    pub(crate) fn handle(&self, number: u32) -> Handle {
        Handle {
            number,
            stamp: self.0[number as usize],
        }
    }

    /// Gives a stamp to what was made and got a number.
    pub(crate) fn add(&mut self, number: u32) -> Result<Handle, TryReserveError> {
        static LAST: AtomicU64 = AtomicU64::new(0);
        let place = number as usize;
        if place >= self.0.len() {
            self.0.try_reserve(place + 1 - self.0.len())?;
            self.0.resize(place + 1, 0);
        }
        let stamp = LAST.fetch_add(1, Ordering::Relaxed) + 1;
        self.0[place] = stamp;
        Ok(Handle { number, stamp })
    }

    /// Takes the stamp from what was deleted.
    pub(crate) fn remove(&mut self, handle: Handle) {
        self.0[handle.number as usize] = 0;
    }
}
