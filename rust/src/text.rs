//! Texts of windows and screens: what is formatted into a window, and the picture as lines.
#![forbid(unsafe_code)]

use crate::{sys, Cell, Refusal, Screen, Window, STDSCR};
use std::fmt;

/// A window that texts are formatted into by [`write!`], from its cursor on.
///
/// ```
/// use curspan::{Screen, STDSCR};
/// use std::fmt::Write;
///
/// let mut screen = Screen::new(Vec::new(), 2, 10)?;
/// write!(screen.window_writer(STDSCR), "{:>3} %", 50).unwrap();
/// screen.update_panels();
/// assert_eq!(screen.to_string(), " 50 %     \n          \n");
/// # Ok::<(), curspan::Refusal>(())
/// ```
pub struct WindowWriter<'a, W> {
    screen: &'a mut Screen<W>,
    win: Window,
}

impl<W> fmt::Write for WindowWriter<'_, W> {
    fn write_str(&mut self, text: &str) -> fmt::Result {
        self.screen.waddstr(self.win, text).map_err(|_| fmt::Error)
    }
}

impl<W> Screen<W> {
    /// What [`write!`] writes a formatted text into a window by.
    pub fn window_writer(&mut self, win: impl Into<Window>) -> WindowWriter<'_, W> {
        let win = win.into();
        WindowWriter { screen: self, win }
    }

    /// Moves the cursor, and answers the window it moved in.
    pub(crate) fn moved(
        &mut self,
        win: impl Into<Window>,
        y: u32,
        x: u32,
    ) -> Result<Window, Refusal> {
        let win = win.into();
        self.wmove(win, y, x)?;
        Ok(win)
    }

    /// Moves the cursor, and writes a character there by [`waddch`](Screen::waddch). Where only the
    /// character is refused, the cursor has moved.
    ///
    /// # Errors
    ///
    /// Those of [`wmove`](Screen::wmove) and [`waddch`](Screen::waddch).
    pub fn mvwaddch(
        &mut self,
        win: impl Into<Window>,
        y: u32,
        x: u32,
        ch: char,
    ) -> Result<(), Refusal> {
        let win = self.moved(win, y, x)?;
        self.waddch(win, ch)
    }

    /// Moves the cursor, and inserts a character there by [`winsch`](Screen::winsch).
    ///
    /// # Errors
    ///
    /// Those of [`wmove`](Screen::wmove) and [`winsch`](Screen::winsch).
    pub fn mvwinsch(
        &mut self,
        win: impl Into<Window>,
        y: u32,
        x: u32,
        ch: char,
    ) -> Result<(), Refusal> {
        let win = self.moved(win, y, x)?;
        self.winsch(win, ch)
    }

    /// Moves the cursor, and deletes the character there by [`wdelch`](Screen::wdelch).
    ///
    /// # Errors
    ///
    /// Those of [`wmove`](Screen::wmove).
    pub fn mvwdelch(&mut self, win: impl Into<Window>, y: u32, x: u32) -> Result<(), Refusal> {
        let win = self.moved(win, y, x)?;
        self.wdelch(win)
    }

    /// Moves the cursor, and answers the cell there by [`winch`](Screen::winch).
    ///
    /// # Errors
    ///
    /// Those of [`wmove`](Screen::wmove).
    pub fn mvwinch(&mut self, win: impl Into<Window>, y: u32, x: u32) -> Result<Cell, Refusal> {
        let win = self.moved(win, y, x)?;
        self.winch(win)
    }
}

impl<W> fmt::Display for Screen<W> {
    /// The characters of the virtual screen, a line each.
    fn fmt(&self, f: &mut fmt::Formatter<'_>) -> fmt::Result {
        let (lines, _) = self.getmaxyx(STDSCR).map_err(|_| fmt::Error)?;
        for y in 0..lines {
            let row = self.shown_row(y).map_err(|_| fmt::Error)?;
            for cell in row {
                write!(f, "{}", cell.character())?;
            }
            writeln!(f)?;
        }
        Ok(())
    }
}

/// A text as a window can have it: a letter of Latin script without its mark, and in place of any
/// other character that a window has not, as a tab, a question mark, with a blank where it is wide.
/// Newlines, carriage returns and backspaces stay.
///
/// ```
/// assert_eq!(curspan::plain("résumé.pdf"), "resume.pdf");
/// ```
#[must_use]
pub fn plain(text: &str) -> String {
    sys::plain(text)
}
