#![forbid(unsafe_code)]

use crate::handles::Stamps;
use crate::{sys, Panel, Refusal, Window, STDSCR};
use std::fmt;
use std::io::{self, Write};

/// A screen: windows, panels, a virtual screen that shows them, and the writer that takes the bytes
/// for a terminal.
///
/// Each call is a method by its name in X/Open Curses or in panel(3). A [`Window`] is a window or
/// pad, and a [`Panel`] a panel. Lines and columns count from 0. A call that is refused changes
/// nothing and sends nothing. What only asks takes `&self`.
///
/// Dropping a screen frees all that it has, and writes nothing. A screen can be sent to another
/// thread:
///
/// ```
/// use curspan::{Screen, STDSCR};
///
/// let mut screen = Screen::new(Vec::new(), 4, 10)?;
/// let thread = std::thread::spawn(move || screen.waddstr(STDSCR, "from there").map(|()| screen));
/// let screen = thread.join().unwrap()?;
/// assert_eq!(screen.getyx(STDSCR)?, (1, 0));
/// # Ok::<(), curspan::Refusal>(())
/// ```
///
/// Only one thread at a time has it:
///
/// ```compile_fail
/// fn share<T: Sync>() {}
/// share::<curspan::Screen<Vec<u8>>>();
/// ```
pub struct Screen<W> {
    pub(crate) sys: sys::Screen,
    pub(crate) windows: Stamps,
    pub(crate) panels: Stamps,
    /// The bytes that are being written, and whether they, or earlier ones, may not have been.
    bytes: Vec<u8>,
    is_unsure: bool,
    writer: W,
}

impl<W: Write> Screen<W> {
    /// Makes a blank screen, over what takes the bytes for a terminal of its size: a file, standard
    /// output, or a `Vec<u8>`, of which the program does with the bytes what it likes.
    ///
    /// The first [`doupdate`](Screen::doupdate) clears the terminal.
    ///
    /// # Errors
    ///
    /// [`BadSize`](Refusal::BadSize) if there aren't 1 to 999 lines and columns;
    /// [`NoMemory`](Refusal::NoMemory).
    pub fn new(writer: W, lines: u32, columns: u32) -> Result<Screen<W>, Refusal> {
        Ok(Screen {
            sys: sys::Screen::open(lines, columns)?,
            windows: Stamps::new().map_err(|_| Refusal::NoMemory)?,
            panels: Stamps::new().map_err(|_| Refusal::NoMemory)?,
            bytes: Vec::new(),
            is_unsure: false,
            writer,
        })
    }

    /// Writes the bytes that show the virtual screen on the terminal, and flushes: only what
    /// changed, or all of it after a clear. Answers how many bytes they are.
    ///
    /// # Errors
    ///
    /// Those of the writer. Whatever part of the bytes it took, the terminal may show anything
    /// then, and the next `doupdate` clears it and sends all, so that one which succeeds repairs
    /// it: it is made at once where the writer was [`Interrupted`](io::ErrorKind::Interrupted). And
    /// [`OutOfMemory`](io::ErrorKind::OutOfMemory) where there is no memory for the bytes; those
    /// that were made come before the next one's.
    pub fn doupdate(&mut self) -> io::Result<u32> {
        match self.send() {
            Err(error) if error.kind() == io::ErrorKind::Interrupted => self.send(),
            answer => answer,
        }
    }

    /// Writes what the screen sends: all of it where the terminal may show anything.
    fn send(&mut self) -> io::Result<u32> {
        if self.is_unsure {
            self.sys.invalidate();
        }
        let sent = self.sys.doupdate();
        self.bytes.clear();
        self.sys
            .take(&mut self.bytes)
            .map_err(|_| io::ErrorKind::OutOfMemory)?;
        self.is_unsure = true;
        self.writer.write_all(&self.bytes)?;
        self.writer.flush()?;
        self.is_unsure = false;
        sent.ok_or_else(|| io::ErrorKind::OutOfMemory.into())
    }
}

impl<W> Screen<W> {
    /// The writer.
    pub fn writer(&self) -> &W {
        &self.writer
    }

    /// The writer, to be changed. What else is written to the terminal may have to be followed by
    /// [`invalidate`](Screen::invalidate).
    pub fn writer_mut(&mut self) -> &mut W {
        &mut self.writer
    }

    /// Frees the screen, and answers its writer.
    ///
    /// ```compile_fail,E0382
    /// let screen = curspan::Screen::new(Vec::new(), 4, 10).unwrap();
    /// let bytes = screen.into_writer();
    /// screen.getyx(curspan::STDSCR);
    /// ```
    pub fn into_writer(self) -> W {
        self.writer
    }

    /// Says that the terminal may show anything: the next [`doupdate`](Screen::doupdate) clears it
    /// and sends all.
    pub fn invalidate(&mut self) {
        self.sys.invalidate();
    }

    /// Deletes a window or pad that is in no panel, and from which none derives. Then its handle is
    /// stale.
    ///
    /// # Errors
    ///
    /// [`NoSuchWindow`](Refusal::NoSuchWindow), [`StandardScreen`](Refusal::StandardScreen),
    /// [`InPanel`](Refusal::InPanel), [`HasDerived`](Refusal::HasDerived).
    pub fn delwin(&mut self, win: impl Into<Window>) -> Result<(), Refusal> {
        let win = win.into();
        sys::curspan_delwin(&mut self.sys, self.windows.number(win.0))?;
        self.windows.remove(win.0);
        Ok(())
    }

    /// Deletes a panel. Its window stays, and is in no panel any more. Then the panel's handle is
    /// stale.
    ///
    /// # Errors
    ///
    /// [`NoSuchPanel`](Refusal::NoSuchPanel).
    pub fn del_panel(&mut self, panel: Panel) -> Result<(), Refusal> {
        sys::curspan_del_panel(&mut self.sys, self.panels.number(panel.0))?;
        self.panels.remove(panel.0);
        Ok(())
    }

    /// Writes the characters of a text in order, each as [`waddch`](Screen::waddch) does. No
    /// character of a refused text is written.
    ///
    /// # Errors
    ///
    /// [`NoSuchWindow`](Refusal::NoSuchWindow); [`BadCharacter`](Refusal::BadCharacter) for a
    /// character other than 8, 10, 13 and 32 to 126.
    #[inline]
    pub fn waddstr(
        &mut self,
        win: impl Into<Window>,
        text: impl AsRef<[u8]>,
    ) -> Result<(), Refusal> {
        let win = self.windows.number(win.into().0);
        sys::waddstr(&mut self.sys, win, text.as_ref())?;
        Ok(())
    }

    /// Moves the cursor by [`wmove`](Screen::wmove), and writes a text there by
    /// [`waddstr`](Screen::waddstr). Where only the text is refused, the cursor has moved.
    ///
    /// # Errors
    ///
    /// [`NoSuchWindow`](Refusal::NoSuchWindow); [`OutsideWindow`](Refusal::OutsideWindow) for a
    /// place that the window hasn't; [`BadCharacter`](Refusal::BadCharacter) for a character other
    /// than 8, 10, 13 and 32 to 126.
    #[inline]
    pub fn mvwaddstr(
        &mut self,
        win: impl Into<Window>,
        y: u32,
        x: u32,
        text: impl AsRef<[u8]>,
    ) -> Result<(), Refusal> {
        let win = win.into();
        self.wmove(win, y, x)?;
        self.waddstr(win, text)
    }

    /// Takes the picture of windows and panels into the virtual screen, with the cursor of the top
    /// visible panel's window, or else of the standard screen. Answers how many cells it read.
    #[inline]
    pub fn update_panels(&mut self) -> u32 {
        sys::curspan_update_panels(&mut self.sys).map_or(0, |answer| answer.first)
    }

    /// The window or pad of a number that the library answered.
    pub(crate) fn window(&self, number: u32) -> Window {
        Window(self.windows.handle(number))
    }

    /// The panel of a number that the library answered, 0 for none.
    pub(crate) fn panel(&self, number: u32) -> Option<Panel> {
        (number != 0).then(|| Panel(self.panels.handle(number)))
    }

    /// The handle of a window that was made, which is deleted again where there is no memory for a
    /// stamp.
    pub(crate) fn added_window(&mut self, number: u32) -> Result<Window, Refusal> {
        self.windows.add(number).map(Window).or_else(|_| {
            sys::curspan_delwin(&mut self.sys, number)?;
            Err(Refusal::NoMemory)
        })
    }

    /// The handle of a panel that was made, which is deleted again where there is no memory for a
    /// stamp.
    pub(crate) fn added_panel(&mut self, number: u32) -> Result<Panel, Refusal> {
        self.panels.add(number).map(Panel).or_else(|_| {
            sys::curspan_del_panel(&mut self.sys, number)?;
            Err(Refusal::NoMemory)
        })
    }
}

impl<W> fmt::Debug for Screen<W> {
    /// Its size.
    fn fmt(&self, f: &mut fmt::Formatter<'_>) -> fmt::Result {
        let (lines, columns) = self.getmaxyx(STDSCR).unwrap_or_default();
        f.debug_struct("Screen")
            .field("lines", &lines)
            .field("columns", &columns)
            .finish_non_exhaustive()
    }
}
