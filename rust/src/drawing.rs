//! Cells that are given, and lines and boxes.
#![forbid(unsafe_code)]

use crate::{sys, Cell, Refusal, Screen, Window};

impl<W> Screen<W> {
    /// Sets the cells of a window or pad in the lines from `top` to `bottom` and the columns from
    /// `left` to `right`, all inclusive, to one cell. The cursor stays, and the window's attributes
    /// and background have no part in it.
    ///
    /// ```
    /// use curspan::{Attributes, Cell, Screen, STDSCR};
    ///
    /// let mut screen = Screen::new(Vec::new(), 3, 6)?;
    /// screen.fill(STDSCR, 1, 2, 2, 4, Cell::new('#', Attributes::BOLD, 0)?)?;
    /// screen.update_panels();
    /// assert_eq!(screen.to_string(), "      \n  ### \n  ### \n");
    /// # Ok::<(), curspan::Refusal>(())
    /// ```
    ///
    /// # Errors
    ///
    /// [`NoSuchWindow`](Refusal::NoSuchWindow); [`BadRectangle`](Refusal::BadRectangle) if a last
    /// line or column comes before its first; [`OutsideWindow`](Refusal::OutsideWindow) if the
    /// rectangle isn't in the window.
    #[inline]
    pub fn fill(
        &mut self,
        win: impl Into<Window>,
        top: u32,
        left: u32,
        bottom: u32,
        right: u32,
        cell: Cell,
    ) -> Result<(), Refusal> {
        let win = self.windows.number(win.into().0);
        sys::curspan_fill(&mut self.sys, win, top, left, bottom, right, cell.0).map(drop)
    }

    /// Puts cells into line `y` of a window or pad, from column `x` on. The cursor stays, and the
    /// window's attributes and background have no part in it.
    ///
    /// # Errors
    ///
    /// [`NoSuchWindow`](Refusal::NoSuchWindow); [`OutsideWindow`](Refusal::OutsideWindow) if the
    /// window hasn't the line, or not so many columns from `x` on.
    #[inline]
    pub fn put(
        &mut self,
        win: impl Into<Window>,
        y: u32,
        x: u32,
        cells: &[Cell],
    ) -> Result<(), Refusal> {
        let win = self.windows.number(win.into().0);
        sys::put(&mut self.sys, win, y, x, cells).map(drop)
    }

    /// The cell that a window writes a character as: with its attributes and pair, and those of the
    /// background, whose character a space is.
    fn written(&self, win: Window, ch: char) -> Result<Cell, Refusal> {
        let (attributes, pair) = self.wattr_get(win)?;
        let background = self.getbkgd(win)?;
        let ch = if ch == ' ' {
            background.character()
        } else {
            ch
        };
        let pair = if pair == 0 { background.pair() } else { pair };
        Cell::new(ch, attributes | background.attributes(), pair)
    }

    /// Draws a line of `n` characters from the cursor to the right, as far as the window goes. They
    /// get attributes as written ones do, and the cursor stays.
    ///
    /// # Errors
    ///
    /// [`NoSuchWindow`](Refusal::NoSuchWindow); [`BadCharacter`](Refusal::BadCharacter) for a
    /// character outside of the space to the tilde.
    pub fn whline(&mut self, win: impl Into<Window>, ch: char, n: u32) -> Result<(), Refusal> {
        let win = win.into();
        let (cell, (y, x)) = (self.written(win, ch)?, self.getyx(win)?);
        let columns = n.min(self.getmaxyx(win)?.1 - x);
        if columns == 0 {
            return Ok(());
        }
        self.fill(win, y, x, y, x + columns - 1, cell)
    }

    /// Draws a line of `n` characters from the cursor downwards, as far as the window goes. They get
    /// attributes as written ones do, and the cursor stays.
    ///
    /// # Errors
    ///
    /// Those of [`whline`](Screen::whline).
    pub fn wvline(&mut self, win: impl Into<Window>, ch: char, n: u32) -> Result<(), Refusal> {
        let win = win.into();
        let (cell, (y, x)) = (self.written(win, ch)?, self.getyx(win)?);
        let lines = n.min(self.getmaxyx(win)?.0 - y);
        if lines == 0 {
            return Ok(());
        }
        self.fill(win, y, x, y + lines - 1, x, cell)
    }

    /// Moves the cursor, and draws a line to the right from there on by
    /// [`whline`](Screen::whline).
    ///
    /// # Errors
    ///
    /// Those of [`wmove`](Screen::wmove) and [`whline`](Screen::whline).
    pub fn mvwhline(
        &mut self,
        win: impl Into<Window>,
        y: u32,
        x: u32,
        ch: char,
        n: u32,
    ) -> Result<(), Refusal> {
        let win = self.moved(win, y, x)?;
        self.whline(win, ch, n)
    }

    /// Moves the cursor, and draws a line downwards from there on by [`wvline`](Screen::wvline).
    ///
    /// # Errors
    ///
    /// Those of [`wmove`](Screen::wmove) and [`whline`](Screen::whline).
    pub fn mvwvline(
        &mut self,
        win: impl Into<Window>,
        y: u32,
        x: u32,
        ch: char,
        n: u32,
    ) -> Result<(), Refusal> {
        let win = self.moved(win, y, x)?;
        self.wvline(win, ch, n)
    }

    /// Draws the border of a window, of characters in the order of curses: left, right, top, bottom,
    /// and the corners, the upper ones first. They get attributes as written ones do.
    ///
    /// # Errors
    ///
    /// Those of [`whline`](Screen::whline).
    pub fn wborder(
        &mut self,
        win: impl Into<Window>,
        characters: [char; 8],
    ) -> Result<(), Refusal> {
        let win = win.into();
        let (lines, columns) = self.getmaxyx(win)?;
        let mut cells = [Cell::default(); 8];
        for (cell, ch) in cells.iter_mut().zip(characters) {
            *cell = self.written(win, ch)?;
        }
        let (bottom, right) = (lines - 1, columns - 1);
        let parts = [
            (0, 0, bottom, 0),
            (0, right, bottom, right),
            (0, 0, 0, right),
            (bottom, 0, bottom, right),
            (0, 0, 0, 0),
            (0, right, 0, right),
            (bottom, 0, bottom, 0),
            (bottom, right, bottom, right),
        ];
        for ((top, left, bottom, right), cell) in parts.into_iter().zip(cells) {
            self.fill(win, top, left, bottom, right, cell)?;
        }
        Ok(())
    }

    /// Draws a box: the border of a window, of one character for the sides, one for the top and the
    /// bottom, and `+` for the corners. It is curses' `box`, whose name is a word of Rust.
    ///
    /// ```
    /// use curspan::Screen;
    ///
    /// let mut screen = Screen::new(Vec::new(), 4, 10)?;
    /// let win = screen.newwin(3, 9, 0, 0)?;
    /// screen.wbox(win, '|', '-')?;
    /// screen.mvwaddstr(win, 1, 2, "hello")?;
    /// screen.new_panel(win)?;
    /// screen.update_panels();
    /// assert_eq!(screen.to_string(), "+-------+ \n| hello | \n+-------+ \n          \n");
    /// # Ok::<(), curspan::Refusal>(())
    /// ```
    ///
    /// # Errors
    ///
    /// Those of [`whline`](Screen::whline).
    pub fn wbox(&mut self, win: impl Into<Window>, sides: char, ends: char) -> Result<(), Refusal> {
        self.wborder(win, [sides, sides, ends, ends, '+', '+', '+', '+'])
    }
}
