//! What is asked of a screen beside the calls.
#![forbid(unsafe_code)]

use crate::{sys, Attributes, Cell, Pad, Panel, Refusal, Screen, ShownCell, Window, STDSCR};
use std::iter;

impl<W> Screen<W> {
    /// The cells of a line of a window or pad.
    ///
    /// ```
    /// use curspan::{Attributes, Screen, STDSCR};
    ///
    /// let mut screen = Screen::new(Vec::new(), 4, 10)?;
    /// screen.wattron(STDSCR, Attributes::BOLD)?;
    /// screen.waddstr(STDSCR, "bold")?;
    /// let row = screen.row(STDSCR, 0)?;
    /// assert_eq!(row.iter().map(|cell| cell.character()).collect::<String>(), "bold      ");
    /// assert_eq!(row[0].attributes(), Attributes::BOLD);
    /// # Ok::<(), curspan::Refusal>(())
    /// ```
    ///
    /// # Errors
    ///
    /// [`NoSuchWindow`](Refusal::NoSuchWindow); [`OutsideWindow`](Refusal::OutsideWindow) if the
    /// window hasn't the line.
    pub fn row(&self, win: impl Into<Window>, y: u32) -> Result<Vec<Cell>, Refusal> {
        let win = win.into();
        let mut cells = vec![Cell::default(); self.read_row(win, y, &mut [])?];
        self.read_row(win, y, &mut cells)?;
        Ok(cells)
    }

    /// Puts the cells of a line of a window or pad, from column 0 on, into a slice, as many as it
    /// has room for. Answers how many columns the line has.
    ///
    /// # Errors
    ///
    /// As [`row`](Screen::row).
    #[inline]
    pub fn read_row(
        &self,
        win: impl Into<Window>,
        y: u32,
        cells: &mut [Cell],
    ) -> Result<usize, Refusal> {
        let answer = sys::row(&self.sys, self.windows.number(win.into().0), y, cells)?;
        Ok(answer.first as usize)
    }

    /// The cell of a window or pad at line `y` and column `x`.
    ///
    /// # Errors
    ///
    /// [`NoSuchWindow`](Refusal::NoSuchWindow); [`OutsideWindow`](Refusal::OutsideWindow) if the
    /// window hasn't the place.
    #[inline]
    pub fn cell(&self, win: impl Into<Window>, y: u32, x: u32) -> Result<Cell, Refusal> {
        let answer = sys::curspan_cell(&self.sys, self.windows.number(win.into().0), y, x)?;
        Ok(Cell(answer.first))
    }

    /// The cells of a line of the virtual screen, as the last [`doupdate`](Screen::doupdate) that
    /// succeeded or the next one shows them.
    ///
    /// # Errors
    ///
    /// [`OutsideWindow`](Refusal::OutsideWindow) if the screen hasn't the line.
    pub fn shown_row(&self, y: u32) -> Result<Vec<ShownCell>, Refusal> {
        let mut cells = vec![ShownCell::default(); self.read_shown_row(y, &mut [])?];
        self.read_shown_row(y, &mut cells)?;
        Ok(cells)
    }

    /// Puts the cells of a line of the virtual screen, from column 0 on, into a slice, as many as
    /// it has room for. Answers how many columns the line has.
    ///
    /// # Errors
    ///
    /// As [`shown_row`](Screen::shown_row).
    #[inline]
    pub fn read_shown_row(&self, y: u32, cells: &mut [ShownCell]) -> Result<usize, Refusal> {
        Ok(sys::shown_row(&self.sys, y, cells)?.first as usize)
    }

    /// All windows and pads in the order of their numbers, [`STDSCR`] first.
    ///
    /// The screen can't change meanwhile:
    ///
    /// ```compile_fail,E0502
    /// let mut screen = curspan::Screen::new(Vec::new(), 4, 10).unwrap();
    /// for win in screen.windows() {
    ///     screen.delwin(win);
    /// }
    /// ```
    pub fn windows(&self) -> impl Iterator<Item = Window> + '_ {
        let next = move |win: &Window| {
            let answer = sys::curspan_next_window(&self.sys, win.number()).ok()?;
            (answer.first != 0).then(|| self.window(answer.first))
        };
        iter::successors(Some(STDSCR), next)
    }

    /// All panels, visible and hidden, in the order of their numbers.
    pub fn panels(&self) -> impl Iterator<Item = Panel> + '_ {
        let after = move |number| {
            let answer = sys::curspan_next_panel(&self.sys, number).ok()?;
            self.panel(answer.first)
        };
        iter::successors(after(0), move |panel| after(panel.number()))
    }

    /// The attributes that written characters get, and their colour pair.
    ///
    /// # Errors
    ///
    /// [`NoSuchWindow`](Refusal::NoSuchWindow).
    #[inline]
    pub fn wattr_get(&self, win: impl Into<Window>) -> Result<(Attributes, u32), Refusal> {
        let answer = sys::curspan_wattr_get(&self.sys, self.windows.number(win.into().0))?;
        Ok((Attributes::of_bits(answer.first), answer.second))
    }

    /// The background: the cell that clearing sets.
    ///
    /// # Errors
    ///
    /// [`NoSuchWindow`](Refusal::NoSuchWindow).
    #[inline]
    pub fn getbkgd(&self, win: impl Into<Window>) -> Result<Cell, Refusal> {
        let answer = sys::curspan_getbkgd(&self.sys, self.windows.number(win.into().0))?;
        Ok(Cell(answer.first))
    }

    /// The first and the last line of the scroll region.
    ///
    /// # Errors
    ///
    /// [`NoSuchWindow`](Refusal::NoSuchWindow).
    #[inline]
    pub fn wgetscrreg(&self, win: impl Into<Window>) -> Result<(u32, u32), Refusal> {
        let answer = sys::curspan_wgetscrreg(&self.sys, self.windows.number(win.into().0))?;
        Ok((answer.first, answer.second))
    }

    /// Whether the window scrolls.
    ///
    /// # Errors
    ///
    /// [`NoSuchWindow`](Refusal::NoSuchWindow).
    #[inline]
    pub fn is_scrollok(&self, win: impl Into<Window>) -> Result<bool, Refusal> {
        let answer = sys::curspan_is_scrollok(&self.sys, self.windows.number(win.into().0))?;
        Ok(answer.first != 0)
    }

    /// Whether the window asks for a clear screen where it is next taken into the virtual screen.
    ///
    /// # Errors
    ///
    /// [`NoSuchWindow`](Refusal::NoSuchWindow).
    #[inline]
    pub fn is_cleared(&self, win: impl Into<Window>) -> Result<bool, Refusal> {
        let answer = sys::curspan_is_cleared(&self.sys, self.windows.number(win.into().0))?;
        Ok(answer.first != 0)
    }

    /// Whether it is a pad.
    ///
    /// # Errors
    ///
    /// [`NoSuchWindow`](Refusal::NoSuchWindow).
    #[inline]
    pub fn is_pad(&self, win: impl Into<Window>) -> Result<bool, Refusal> {
        let answer = sys::curspan_is_pad(&self.sys, self.windows.number(win.into().0))?;
        Ok(answer.first != 0)
    }

    /// A window of [`windows`](Screen::windows) as the pad that it is.
    ///
    /// # Errors
    ///
    /// [`NoSuchWindow`](Refusal::NoSuchWindow), [`NotPad`](Refusal::NotPad).
    #[inline]
    pub fn pad(&self, win: Window) -> Result<Pad, Refusal> {
        self.is_pad(win)?
            .then_some(Pad(win.0))
            .ok_or(Refusal::NotPad)
    }

    /// The window or pad from which a window or pad derives.
    ///
    /// # Errors
    ///
    /// [`NoSuchWindow`](Refusal::NoSuchWindow), [`NotDerived`](Refusal::NotDerived).
    #[inline]
    pub fn wgetparent(&self, win: impl Into<Window>) -> Result<Window, Refusal> {
        let answer = sys::curspan_wgetparent(&self.sys, self.windows.number(win.into().0))?;
        Ok(self.window(answer.first))
    }

    /// The panel that a window is in.
    ///
    /// # Errors
    ///
    /// [`NoSuchWindow`](Refusal::NoSuchWindow).
    #[inline]
    pub fn window_panel(&self, win: impl Into<Window>) -> Result<Option<Panel>, Refusal> {
        let answer = sys::curspan_window_panel(&self.sys, self.windows.number(win.into().0))?;
        Ok(self.panel(answer.first))
    }
}
