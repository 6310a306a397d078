//! The functions of `curspan.h` and `curspan_terminal.h`, of which each is safe to call: the one module with unsafe code.
#![allow(clippy::too_many_arguments)]

use crate::cells::{Cell, ShownCell};
use crate::keys::{Event, Key, Paste};
use crate::{Color, Refusal};
use std::cell::UnsafeCell;
use std::collections::TryReserveError;
use std::ffi::{CStr, CString};
use std::os::raw::{c_char, c_void};
use std::os::unix::ffi::OsStrExt;
use std::os::unix::io::BorrowedFd;
use std::path::Path;
use std::time::Duration;
use std::{io, ptr};

/// A screen of the library: C's `curspan`, which is open. Only the library looks inside. It may be
/// moved, as `curspan.h` says. A query takes what it points to out, and puts it back before it
/// answers.
#[repr(C)]
pub(crate) struct Screen {
    at: UnsafeCell<*mut c_void>,
}

// SAFETY: what a screen points to is its own, and the library keeps nothing else, for a thread or
// for all.
unsafe impl Send for Screen {}

/// C's `curspan_answer`.
#[repr(C)]
#[derive(Clone, Copy)]
pub(crate) struct Answer {
    status: u32,
    pub(crate) first: u32,
    pub(crate) second: u32,
}

/// The statuses that are no refusals.
const OK: u32 = 0;
const WRITE_FAILED: u32 = 21;

impl Answer {
    /// The answer of a call that was done, or why it was refused.
    #[inline]
    fn check(self) -> Result<Answer, Refusal> {
        match self.status {
            OK => Ok(self),
            status => Err(refusal(status)),
        }
    }
}

#[cold]
fn refusal(status: u32) -> Refusal {
    Refusal::of_number(status)
        .unwrap_or_else(|| panic!("curspan: a call was answered by the unknown status {status}"))
}

/// Declares functions that take a screen, numbers and flags, and lets the crate call each.
macro_rules! functions {
    ($(fn $name:ident(screen: $screen:ty $(, $argument:ident: $type:ty)*) -> Answer;)*) => {
        mod declared {
            use super::{Answer, Screen};

            extern "C" {
                $(pub(super) fn $name(screen: $screen $(, $argument: $type)*) -> Answer;)*
            }
        }

        $(
            #[inline]
            pub(crate) fn $name(screen: $screen $(, $argument: $type)*) -> Result<Answer, Refusal> {
                // SAFETY: the screen is open and borrowed, the rest are plain values, and this is
                // the function's type in curspan.h.
                unsafe { declared::$name(screen $(, $argument)*) }.check()
            }
        )*
    };
}

with_calls! { functions! {
    fn curspan_cell(screen: &Screen, win: u32, y: u32, x: u32) -> Answer;
    fn curspan_wattr_get(screen: &Screen, win: u32) -> Answer;
    fn curspan_getbkgd(screen: &Screen, win: u32) -> Answer;
    fn curspan_wgetscrreg(screen: &Screen, win: u32) -> Answer;
    fn curspan_is_scrollok(screen: &Screen, win: u32) -> Answer;
    fn curspan_is_cleared(screen: &Screen, win: u32) -> Answer;
    fn curspan_is_pad(screen: &Screen, win: u32) -> Answer;
    fn curspan_wgetparent(screen: &Screen, win: u32) -> Answer;
    fn curspan_window_panel(screen: &Screen, win: u32) -> Answer;
    fn curspan_next_window(screen: &Screen, win: u32) -> Answer;
    fn curspan_next_panel(screen: &Screen, panel: u32) -> Answer;
    fn curspan_fill(screen: &mut Screen, win: u32, top: u32, left: u32, bottom: u32, right: u32, cell: u32) -> Answer;
} }

extern "C" {
    fn curspan_open(screen: &mut Screen, lines: u32, columns: u32) -> Answer;
    fn curspan_close(screen: &mut Screen);
    fn curspan_take(screen: &mut Screen, out: *mut u8, room: usize) -> usize;
    fn curspan_invalidate(screen: &mut Screen);
    fn curspan_doupdate(screen: &mut Screen) -> Answer;
    fn curspan_waddstr(screen: &mut Screen, win: u32, text: *const c_char, size: usize) -> Answer;
    fn curspan_row(screen: &Screen, win: u32, y: u32, cells: *mut u32, room: usize) -> Answer;
    fn curspan_put(s: &mut Screen, win: u32, y: u32, x: u32, row: *const u32, n: usize) -> Answer;
    fn curspan_shown_row(screen: &Screen, y: u32, cells: *mut u32, room: usize) -> Answer;
}

impl Screen {
    pub(crate) fn open(lines: u32, columns: u32) -> Result<Screen, Refusal> {
        let mut screen = Screen {
            at: UnsafeCell::new(ptr::null_mut()),
        };
        // SAFETY: the screen is closed, as `CURSPAN_INIT` is.
        unsafe { curspan_open(&mut screen, lines, columns) }.check()?;
        Ok(screen)
    }

    /// Moves the bytes that were sent to the end of a buffer. Where there is no memory for that,
    /// they stay.
    pub(crate) fn take(&mut self, bytes: &mut Vec<u8>) -> Result<(), TryReserveError> {
        loop {
            let room = bytes.capacity() - bytes.len();
            // SAFETY: so much room is behind the bytes of the buffer.
            let length = unsafe { curspan_take(self, bytes.as_mut_ptr().add(bytes.len()), room) };
            if length <= room {
                // SAFETY: there is room for them, and the library wrote them.
                unsafe { bytes.set_len(bytes.len() + length) };
                return Ok(());
            }
            bytes.try_reserve(length)?;
        }
    }

    pub(crate) fn invalidate(&mut self) {
        // SAFETY: the screen is open and borrowed.
        unsafe { curspan_invalidate(self) }
    }

    /// How many bytes were sent, and none where there was no memory for all of them.
    pub(crate) fn doupdate(&mut self) -> Option<u32> {
        // SAFETY: the screen is open and borrowed.
        let answer = unsafe { curspan_doupdate(self) };
        (answer.status != WRITE_FAILED).then_some(answer.first)
    }
}

impl Drop for Screen {
    fn drop(&mut self) {
        // SAFETY: the screen is open, and nothing calls after this.
        unsafe { curspan_close(self) }
    }
}

#[inline]
pub(crate) fn waddstr(screen: &mut Screen, win: u32, text: &[u8]) -> Result<Answer, Refusal> {
    // SAFETY: the screen is open and borrowed, and the text has this length.
    unsafe { curspan_waddstr(screen, win, text.as_ptr().cast(), text.len()) }.check()
}

/// Puts cells into a line of a window.
#[inline]
pub(crate) fn put(
    screen: &mut Screen,
    win: u32,
    y: u32,
    x: u32,
    cells: &[Cell],
) -> Result<Answer, Refusal> {
    // SAFETY: the screen is open and borrowed, and there are so many cells, which are numbers.
    unsafe { curspan_put(screen, win, y, x, cells.as_ptr().cast(), cells.len()) }.check()
}

/// Puts cells of a line into a buffer, and answers how many columns the line has.
pub(crate) fn row(
    screen: &Screen,
    win: u32,
    y: u32,
    cells: &mut [Cell],
) -> Result<Answer, Refusal> {
    // SAFETY: the screen is open and borrowed, and the buffer has this length, of cells that are
    // numbers.
    unsafe { curspan_row(screen, win, y, cells.as_mut_ptr().cast(), cells.len()) }.check()
}

/// Puts cells of a line of the virtual screen into a buffer, and answers how many columns the line
/// has.
pub(crate) fn shown_row(
    screen: &Screen,
    y: u32,
    cells: &mut [ShownCell],
) -> Result<Answer, Refusal> {
    // SAFETY: the screen is open and borrowed, and the buffer has this length, of cells that are
    // numbers.
    unsafe { curspan_shown_row(screen, y, cells.as_mut_ptr().cast(), cells.len()) }.check()
}

/// A terminal of the library: C's `curspan_terminal`, which is open. It stays in the thread that
/// opened it, as a pointer does.
#[derive(Debug)]
#[repr(C)]
pub(crate) struct Terminal {
    at: UnsafeCell<*mut c_void>,
}

/// C's `curspan_key`.
#[repr(C)]
struct Told {
    code: u32,
    modifiers: u32,
    text: *const u8,
    length: usize,
    flags: u32,
    button: u32,
    line: u32,
    column: u32,
}

extern "C" {
    fn curspan_terminal_open(terminal: &Terminal, path: *const c_char, options: u32) -> u32;
    fn curspan_terminal_use(terminal: &Terminal, input: i32, out: i32, options: u32) -> u32;
    fn curspan_terminal_close(terminal: &Terminal) -> u32;
    fn curspan_terminal_size(terminal: &Terminal, lines: &mut i32, columns: &mut i32) -> u32;
    fn curspan_terminal_draw(t: &Terminal, s: *const c_void, bytes: *const u8, n: usize) -> u32;
    fn curspan_terminal_write(terminal: &Terminal, bytes: *const c_void, length: usize) -> u32;
    fn curspan_terminal_init_pair(t: &Terminal, s: &mut Screen, pair: u32, f: i32, b: i32) -> u32;
    fn curspan_terminal_suspend(terminal: &Terminal) -> u32;
    fn curspan_terminal_resume(terminal: &Terminal) -> u32;
    fn curspan_terminal_descriptor(terminal: &Terminal) -> i32;
    fn curspan_terminal_output(terminal: &Terminal) -> i32;
    fn curspan_terminal_flush(t: &Terminal, milliseconds: i32, kept: &mut usize) -> u32;
    fn curspan_terminal_give_back();
    fn curspan_terminal_key(terminal: &Terminal, milliseconds: i32, key: &mut Told) -> u32;
    fn curspan_key_name(key: &Told, out: *mut c_char, room: usize) -> usize;
    fn curspan_terminal_text(status: u32) -> *const c_char;
    fn curspan_plain_text(text: *const c_char, length: usize, out: *mut c_char) -> usize;
}

/// What a call on a terminal was answered.
fn check_terminal(status: u32) -> io::Result<()> {
    const FAILED: u32 = 10;
    const AWAY: u32 = 11;
    match status {
        OK => Ok(()),
        FAILED => Err(io::Error::last_os_error()),
        AWAY => Err(io::ErrorKind::Interrupted.into()),
        // SAFETY: each status has words, which stay.
        _ => Err(io::Error::new(
            io::ErrorKind::Other,
            unsafe { CStr::from_ptr(curspan_terminal_text(status)) }.to_string_lossy(),
        )),
    }
}

/// The code of C that no key in time has. The next tell of what is no key, and then the named ones
/// begin.
const NONE: u32 = 0x11_0000;
pub(crate) const FIRST_NAMED: u32 = NONE + 6;

/// What a call for a key was answered.
pub(crate) enum Answered {
    Event(Event),
    None,
    Eof,
    Interrupted,
}

impl Told {
    const fn new(code: u32, modifiers: u32) -> Told {
        Told {
            code,
            modifiers,
            text: ptr::null(),
            length: 0,
            flags: 0,
            button: 0,
            line: 0,
            column: 0,
        }
    }

    fn answer(&self) -> Answered {
        // SAFETY: the text has so many bytes until the next call.
        let text = unsafe { std::slice::from_raw_parts(self.text, self.length) };
        Answered::Event(match self.code.wrapping_sub(NONE) {
            0 => return Answered::None,
            1 => Event::Resize,
            2 => Event::Paste(Paste {
                text: text.into(),
                is_ended: self.flags & 1 != 0,
            }),
            4 => return Answered::Eof,
            5 => return Answered::Interrupted,
            _ => match Key::of_numbers(self.code, self.modifiers) {
                Some(key) => Event::Key(key),
                None => Event::Unknown(text.into()),
            },
        })
    }
}

/// The name of a key.
pub(crate) fn key_name(code: u32, modifiers: u8) -> String {
    let key = Told::new(code, modifiers.into());
    let mut name = [0_u8; 64];
    // SAFETY: the name has so much room, which is enough for each, and no text is looked at.
    let length = unsafe { curspan_key_name(&key, name.as_mut_ptr().cast(), name.len()) };
    String::from_utf8_lossy(&name[..length]).into_owned()
}

/// Milliseconds of C, which aren't less than a time.
fn milliseconds(time: Option<Duration>) -> i32 {
    time.map_or(-1, |time| {
        i32::try_from(time.as_micros().saturating_add(999) / 1000).unwrap_or(i32::MAX)
    })
}

impl Terminal {
    fn closed() -> Terminal {
        Terminal {
            at: UnsafeCell::new(ptr::null_mut()),
        }
    }

    /// Opens the terminal of a file, or without one that which controls the process.
    pub(crate) fn open(path: Option<&Path>, options: u32) -> io::Result<Terminal> {
        let path = path.map(|it| CString::new(it.as_os_str().as_bytes()));
        let path = path.transpose()?;
        let at = path.as_ref().map_or(ptr::null(), |it| it.as_ptr());
        let terminal = Terminal::closed();
        // SAFETY: the terminal is closed, as `CURSPAN_TERMINAL_INIT` is, and the path ends, or is NULL.
        check_terminal(unsafe { curspan_terminal_open(&terminal, at, options) })?;
        Ok(terminal)
    }

    pub(crate) fn over(input: i32, output: i32, options: u32) -> io::Result<Terminal> {
        let terminal = Terminal::closed();
        // SAFETY: the terminal is closed; of descriptors that aren't open the system says so.
        check_terminal(unsafe { curspan_terminal_use(&terminal, input, output, options) })?;
        Ok(terminal)
    }

    pub(crate) fn size(&self) -> (u32, u32) {
        let (mut lines, mut columns) = (0, 0);
        // SAFETY: the terminal is open, as in the functions below, and both are lent.
        unsafe { curspan_terminal_size(self, &mut lines, &mut columns) };
        (lines.unsigned_abs(), columns.unsigned_abs())
    }

    /// Writes the bytes of a screen, which a place of memory stands for.
    pub(crate) fn draw(&self, screen: *const u8, bytes: &[u8]) -> io::Result<()> {
        // SAFETY: the bytes have this length, and the address is only compared.
        check_terminal(unsafe {
            curspan_terminal_draw(self, screen.cast(), bytes.as_ptr(), bytes.len())
        })
    }

    pub(crate) fn write(&self, bytes: &[u8]) -> io::Result<()> {
        // SAFETY: the bytes have this length.
        check_terminal(unsafe { curspan_terminal_write(self, bytes.as_ptr().cast(), bytes.len()) })
    }

    pub(crate) fn init_pair(
        &self,
        screen: &mut Screen,
        pair: u32,
        foreground: Color,
        background: Color,
    ) -> io::Result<()> {
        let number = |color| match color {
            Color::Default => -1,
            _ => color as i32,
        };
        let (foreground, background) = (number(foreground), number(background));
        // SAFETY: the screen is open and borrowed.
        check_terminal(unsafe {
            curspan_terminal_init_pair(self, screen, pair, foreground, background)
        })
    }

    pub(crate) fn suspend(&self) -> io::Result<()> {
        // SAFETY: the terminal is open.
        check_terminal(unsafe { curspan_terminal_suspend(self) })
    }

    pub(crate) fn resume(&self) -> io::Result<()> {
        // SAFETY: the terminal is open.
        check_terminal(unsafe { curspan_terminal_resume(self) })
    }

    /// What tells of keys.
    pub(crate) fn descriptor(&self) -> BorrowedFd<'_> {
        // SAFETY: the terminal is open, as long as it is borrowed, and so is its descriptor.
        unsafe { BorrowedFd::borrow_raw(curspan_terminal_descriptor(self)) }
    }

    /// What takes the bytes.
    pub(crate) fn output(&self) -> i32 {
        // SAFETY: the terminal is open.
        unsafe { curspan_terminal_output(self) }
    }

    /// Writes what was kept, and answers how many bytes of it still are.
    pub(crate) fn flush(&self, time: Option<Duration>) -> io::Result<usize> {
        let mut kept = 0;
        // SAFETY: the terminal is open, and the number is lent.
        check_terminal(unsafe { curspan_terminal_flush(self, milliseconds(time), &mut kept) })?;
        Ok(kept)
    }

    /// Waits for a key.
    pub(crate) fn key(&self, time: Option<Duration>) -> io::Result<Answered> {
        let mut key = Told::new(NONE, 0);
        // SAFETY: the terminal is open, and the key is lent.
        check_terminal(unsafe { curspan_terminal_key(self, milliseconds(time), &mut key) })?;
        Ok(key.answer())
    }
}

impl Drop for Terminal {
    fn drop(&mut self) {
        // SAFETY: nothing calls after this; nothing happens to one that is closed.
        unsafe { curspan_terminal_close(self) };
    }
}

/// Gives each terminal of this process back.
pub(crate) fn give_back() {
    // SAFETY: it may be called at any time.
    unsafe { curspan_terminal_give_back() }
}

/// A text as a window can have it.
pub(crate) fn plain(text: &str) -> String {
    let mut out = vec![0_u8; text.len()];
    // SAFETY: the text has this length, and there is room for as many bytes.
    let length =
        unsafe { curspan_plain_text(text.as_ptr().cast(), text.len(), out.as_mut_ptr().cast()) };
    out.truncate(length);
    String::from_utf8(out).unwrap_or_default()
}
