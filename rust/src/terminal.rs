//! Terminals: their keys, their size, and the page that a screen is shown on.
//!
//! A [`Terminal`] is given back when it and the screens that it made are dropped, before a panic is
//! told of, at exit, and before a signal ends or stops the program:
//!
//! ```no_run
//! use curspan::terminal::{Event, Terminal};
//! use curspan::STDSCR;
//!
//! # fn main() -> Result<(), curspan::Error> {
//! let terminal = Terminal::open()?;
//! let mut screen = terminal.screen()?;
//! loop {
//!     screen.mvwaddstr(STDSCR, 0, 0, "q ends this")?;
//!     screen.update_panels();
//!     screen.doupdate()?;
//!     match terminal.key(None)? {
//!         Some(Event::Key(key)) if key == 'q' => break,
//!         Some(Event::Resize) => screen = terminal.screen_after(screen)?,
//!         _ => {}
//!     }
//! }
//! # Ok(())
//! # }
//! ```
#![forbid(unsafe_code)]

pub use crate::keys::{Code, Event, Key, Modifiers, NoSuchKey, Paste};
use crate::sys::{self, Answered};
use crate::{Attributes, Color, Refusal, Screen, STDSCR};
use std::fmt;
use std::io::{self, Write};
use std::os::unix::io::{AsFd, AsRawFd, BorrowedFd, RawFd};
use std::path::Path;
use std::rc::Rc;
use std::sync::Once;
use std::time::{Duration, Instant};

/// How a terminal is opened.
#[derive(Clone, Copy, Debug)]
pub struct Options(u32);

impl Options {
    const RAW: u32 = 1;
    const PAGE: u32 = 2;
    const HIDE_CURSOR: u32 = 4;
    const PASTE: u32 = 8;
    const SIGNALS: u32 = 16;
    const KEEP: u32 = 32;

    /// Keys come as they are typed, the terminal has a page of its own, its cursor is hidden, a
    /// text that is pasted is one key, and it owns the signals.
    #[must_use]
    pub const fn new() -> Options {
        Options(Options::PAGE | Options::HIDE_CURSOR | Options::PASTE | Options::SIGNALS)
    }

    const fn with(self, bit: u32, flag: bool) -> Options {
        Options(if flag { self.0 | bit } else { self.0 & !bit })
    }

    /// Whether Ctrl-C and the like are keys, and no signals.
    #[must_use]
    pub const fn raw(self, flag: bool) -> Options {
        self.with(Options::RAW, flag)
    }

    /// Whether the terminal shows the screen on a page of its own.
    #[must_use]
    pub const fn page(self, flag: bool) -> Options {
        self.with(Options::PAGE, flag)
    }

    /// Whether the cursor is seen.
    #[must_use]
    pub const fn cursor(self, flag: bool) -> Options {
        self.with(Options::HIDE_CURSOR, !flag)
    }

    /// Whether a text that is pasted is one key.
    #[must_use]
    pub const fn paste(self, flag: bool) -> Options {
        self.with(Options::PASTE, flag)
    }

    /// Whether it owns the signals: one terminal may.
    #[must_use]
    pub const fn signals(self, flag: bool) -> Options {
        self.with(Options::SIGNALS, flag)
    }

    /// Whether no call waits until the terminal takes bytes: then [`flush`](Terminal::flush) tells of
    /// those that it didn't take.
    #[must_use]
    pub const fn keep(self, flag: bool) -> Options {
        self.with(Options::KEEP, flag)
    }

    /// Opens the terminal of a file.
    ///
    /// # Errors
    ///
    /// Those of the system; and [`Other`](io::ErrorKind::Other) with a sentence, for what is no
    /// terminal, for `TERM=dumb`, for one that is open already, and where another one owns the
    /// signals.
    pub fn open(self, path: impl AsRef<Path>) -> io::Result<Terminal> {
        sys::Terminal::open(Some(path.as_ref()), self.0).map(Terminal::new)
    }

    /// Opens the terminal over descriptors that are open already, and stay so as long as it is: of
    /// keys, and for bytes.
    ///
    /// # Errors
    ///
    /// As [`open`](Options::open).
    pub fn over(self, input: RawFd, output: RawFd) -> io::Result<Terminal> {
        sys::Terminal::over(input, output, self.0).map(Terminal::new)
    }
}

impl Default for Options {
    fn default() -> Options {
        Options::new()
    }
}

/// A terminal. It is given back where it and the screens that it made are dropped.
pub struct Terminal(Rc<sys::Terminal>);

/// Gives the terminal back before a panic is told of, so that what is told is seen.
fn give_back_at_panics() {
    static HOOK: Once = Once::new();
    HOOK.call_once(|| {
        let told = std::panic::take_hook();
        std::panic::set_hook(Box::new(move |info| {
            sys::give_back();
            told(info);
        }));
    });
}

impl Terminal {
    fn new(terminal: sys::Terminal) -> Terminal {
        give_back_at_panics();
        Terminal(Rc::new(terminal))
    }

    /// Opens the terminal that controls the process, with [`Options::new`].
    ///
    /// # Errors
    ///
    /// As [`Options::open`].
    pub fn open() -> io::Result<Terminal> {
        sys::Terminal::open(None, Options::new().0).map(Terminal::new)
    }

    /// The lines and columns. A terminal that doesn't know has 24 by 80.
    #[must_use]
    pub fn size(&self) -> (u32, u32) {
        self.0.size()
    }

    /// Waits for a key or what else comes, for some time, or for ever where that is `None`, and not
    /// at all where it is zero. The answer is `None` where nothing came in that time.
    ///
    /// # Errors
    ///
    /// Those of the system; and [`UnexpectedEof`](io::ErrorKind::UnexpectedEof) where the terminal is
    /// gone.
    pub fn key(&self, timeout: Option<Duration>) -> io::Result<Option<Event>> {
        let end = timeout.and_then(|time| Instant::now().checked_add(time));
        loop {
            let left = end.map(|end| end.saturating_duration_since(Instant::now()));
            match self.0.key(left)? {
                Answered::None if end.map_or(false, |end| end <= Instant::now()) => {
                    return Ok(None)
                }
                Answered::None | Answered::Interrupted => {}
                Answered::Eof => return Err(io::ErrorKind::UnexpectedEof.into()),
                Answered::Event(event) => return Ok(Some(event)),
            }
        }
    }

    /// A blank screen of the terminal's size, which writes there. Where it is dropped the terminal
    /// stays.
    ///
    /// # Errors
    ///
    /// [`NoMemory`](Refusal::NoMemory).
    pub fn screen(&self) -> Result<Screen<Output>, Refusal> {
        let (lines, columns) = self.size();
        let output = Output {
            terminal: Rc::clone(&self.0),
            place: Box::new(0),
            bytes: Vec::new(),
        };
        Screen::new(output, lines, columns)
    }

    /// The same screen, where the terminal's size is the same. Else a new one, whose standard
    /// screen has what that one showed: an old popup stays painted there until
    /// [`werase`](Screen::werase), or until it is written over. Pairs stay.
    /// Windows and panels are gone, and so is what was set of the standard screen, as attributes
    /// and `scrollok`.
    ///
    /// # Errors
    ///
    /// [`NoMemory`](Refusal::NoMemory).
    pub fn screen_after(&self, before: Screen<Output>) -> Result<Screen<Output>, Refusal> {
        if before.getmaxyx(STDSCR)? == self.size() {
            return Ok(before);
        }
        let mut screen = self.screen()?;
        screen.take_over(&before)?;
        Ok(screen)
    }

    /// Gives a pair of a screen that this terminal made its colours, of which each may be
    /// [`Color::Default`]. All pairs of such a screen are given so, and none by
    /// [`Screen::init_pair`]. What has the pair already is shown in the new colours.
    ///
    /// # Errors
    ///
    /// [`BadPair`](Refusal::BadPair) for pair 0, and for one past 63.
    pub fn init_pair(
        &self,
        screen: &mut Screen<Output>,
        pair: u32,
        foreground: Color,
        background: Color,
    ) -> Result<(), Refusal> {
        self.0
            .init_pair(&mut screen.sys, pair, foreground, background)
            .map_err(|_| Refusal::BadPair)
    }

    /// Writes all of some bytes, as they are.
    ///
    /// # Errors
    ///
    /// Those of the system.
    pub fn write(&self, bytes: &[u8]) -> io::Result<()> {
        self.0.write(bytes)
    }

    /// Gives the terminal back for a while, as for another program.
    ///
    /// # Errors
    ///
    /// Those of the system.
    pub fn suspend(&self) -> io::Result<()> {
        self.0.suspend()
    }

    /// Takes the terminal again, as the next `doupdate` would.
    ///
    /// # Errors
    ///
    /// Those of the system.
    pub fn resume(&self) -> io::Result<()> {
        self.0.resume()
    }

    /// Writes what a terminal of [`Options::keep`] didn't take, for some time at most, or without end
    /// where that is `None`, and answers how many bytes are kept still. While there are some, nothing
    /// is to be drawn, and [`output`](Terminal::output) to be waited for.
    ///
    /// # Errors
    ///
    /// Those of the system.
    pub fn flush(&self, timeout: Option<Duration>) -> io::Result<usize> {
        self.0.flush(timeout)
    }

    /// The descriptor to which bytes are written, to wait for it beside others.
    #[must_use]
    pub fn output(&self) -> RawFd {
        self.0.output()
    }
}

/// A descriptor to wait for beside others: it is ready to be read whenever [`Terminal::key`] with a
/// time of zero has something to answer. It may be ready without, as where half a sequence came:
/// then that answers `None`, and the descriptor isn't ready again before more comes. Nothing else
/// is to be done with it.
impl AsFd for Terminal {
    fn as_fd(&self) -> BorrowedFd<'_> {
        self.0.descriptor()
    }
}

/// The same descriptor, as `AsyncFd` of tokio takes it.
impl AsRawFd for Terminal {
    fn as_raw_fd(&self) -> RawFd {
        self.as_fd().as_raw_fd()
    }
}

impl fmt::Debug for Terminal {
    fn fmt(&self, f: &mut fmt::Formatter<'_>) -> fmt::Result {
        let (lines, columns) = self.size();
        write!(f, "Terminal({lines} by {columns})")
    }
}

/// What a screen of a terminal writes to.
#[derive(Debug)]
pub struct Output {
    terminal: Rc<sys::Terminal>,
    /// Its address tells this screen from others.
    place: Box<u8>,
    bytes: Vec<u8>,
}

impl Write for Output {
    fn write(&mut self, bytes: &[u8]) -> io::Result<usize> {
        self.bytes.extend_from_slice(bytes);
        Ok(bytes.len())
    }

    /// Fails as [`Interrupted`](io::ErrorKind::Interrupted) where the terminal was given back
    /// meanwhile, or showed another screen, so that this one sends all.
    fn flush(&mut self) -> io::Result<()> {
        let bytes = std::mem::take(&mut self.bytes);
        self.terminal.draw(&*self.place, &bytes)
    }
}

impl Screen<Output> {
    /// Takes the pairs of another screen, and what that showed into the standard screen.
    fn take_over(&mut self, before: &Screen<Output>) -> Result<(), Refusal> {
        for pair in 1..64 {
            sys::curspan_init_pair(&mut self.sys, pair, pair / 8, pair % 8)?;
        }
        let (lines, columns) = self.getmaxyx(STDSCR)?;
        for y in 0..lines {
            let row = before.shown_row(y).unwrap_or_default();
            for (x, cell) in (0..columns).zip(row) {
                let pair = match (cell.foreground(), cell.background()) {
                    (Some(first), Some(second)) => 8 * u32::from(first) + u32::from(second),
                    _ => 0,
                };
                self.wattrset(STDSCR, cell.attributes())?;
                self.wcolor_set(STDSCR, pair)?;
                self.mvwaddch(STDSCR, y, x, cell.character())?;
            }
        }
        self.wattrset(STDSCR, Attributes::NONE)?;
        self.wcolor_set(STDSCR, 0)?;
        self.wmove(STDSCR, 0, 0)?;
        self.wnoutrefresh(STDSCR)
    }
}
