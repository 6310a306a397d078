//! The methods that only hand on their call. Written by tools/calls from calls.table.
#![forbid(unsafe_code)]

use crate::{sys, Attributes, Cell, Color, Pad, Panel, Refusal, Screen, Window};

#[allow(clippy::similar_names, clippy::too_many_arguments)]
impl<W> Screen<W> {
    /// Makes a window at a place of the screen, with a blank grid of its own. A size of 0 reaches
    /// to the edge of the screen.
    ///
    /// # Errors
    ///
    /// [`OffScreen`](Refusal::OffScreen), [`TooMany`](Refusal::TooMany),
    /// [`NoMemory`](Refusal::NoMemory).
    #[inline]
    pub fn newwin(&mut self, lines: u32, columns: u32, y: u32, x: u32) -> Result<Window, Refusal> {
        let answer = sys::curspan_newwin(&mut self.sys, lines, columns, y, x)?;
        self.added_window(answer.first)
    }

    /// Makes a window that shows the part of a window from a place of the screen on. A size of 0
    /// reaches to the window's edge.
    ///
    /// # Errors
    ///
    /// [`NoSuchWindow`](Refusal::NoSuchWindow), [`IsPad`](Refusal::IsPad),
    /// [`OutsideParent`](Refusal::OutsideParent), [`TooMany`](Refusal::TooMany),
    /// [`NoMemory`](Refusal::NoMemory).
    #[inline]
    pub fn subwin(
        &mut self,
        win: Window,
        lines: u32,
        columns: u32,
        y: u32,
        x: u32,
    ) -> Result<Window, Refusal> {
        let win = self.windows.number(win.0);
        let answer = sys::curspan_subwin(&mut self.sys, win, lines, columns, y, x)?;
        self.added_window(answer.first)
    }

    /// Makes a window over the part of a window from a line and a column of it on. They share their
    /// cells. A size of 0 reaches to its edge.
    ///
    /// # Errors
    ///
    /// [`NoSuchWindow`](Refusal::NoSuchWindow), [`IsPad`](Refusal::IsPad),
    /// [`OutsideParent`](Refusal::OutsideParent), [`TooMany`](Refusal::TooMany),
    /// [`NoMemory`](Refusal::NoMemory).
    #[inline]
    pub fn derwin(
        &mut self,
        win: Window,
        lines: u32,
        columns: u32,
        y: u32,
        x: u32,
    ) -> Result<Window, Refusal> {
        let win = self.windows.number(win.0);
        let answer = sys::curspan_derwin(&mut self.sys, win, lines, columns, y, x)?;
        self.added_window(answer.first)
    }

    /// Makes a pad of 1 to 1000 lines and columns, which has no place on the screen, with a blank
    /// grid of its own.
    ///
    /// # Errors
    ///
    /// [`BadSize`](Refusal::BadSize), [`TooMany`](Refusal::TooMany),
    /// [`NoMemory`](Refusal::NoMemory).
    #[inline]
    pub fn newpad(&mut self, lines: u32, columns: u32) -> Result<Pad, Refusal> {
        let answer = sys::curspan_newpad(&mut self.sys, lines, columns)?;
        self.added_window(answer.first).map(|pad| Pad(pad.0))
    }

    /// Makes a pad that shows the part of a pad from a line and a column of it on. A size of 0
    /// reaches to its edge.
    ///
    /// # Errors
    ///
    /// [`NoSuchWindow`](Refusal::NoSuchWindow), [`NotPad`](Refusal::NotPad),
    /// [`OutsideParent`](Refusal::OutsideParent), [`TooMany`](Refusal::TooMany),
    /// [`NoMemory`](Refusal::NoMemory).
    #[inline]
    pub fn subpad(
        &mut self,
        pad: Pad,
        lines: u32,
        columns: u32,
        y: u32,
        x: u32,
    ) -> Result<Pad, Refusal> {
        let pad = self.windows.number(pad.0);
        let answer = sys::curspan_subpad(&mut self.sys, pad, lines, columns, y, x)?;
        self.added_window(answer.first).map(|pad| Pad(pad.0))
    }

    /// Moves a window that is in no panel to a place of the screen. No other window moves.
    ///
    /// # Errors
    ///
    /// [`NoSuchWindow`](Refusal::NoSuchWindow), [`StandardScreen`](Refusal::StandardScreen),
    /// [`IsPad`](Refusal::IsPad), [`InPanel`](Refusal::InPanel), [`OffScreen`](Refusal::OffScreen).
    #[inline]
    pub fn mvwin(&mut self, win: Window, y: u32, x: u32) -> Result<(), Refusal> {
        let win = self.windows.number(win.0);
        sys::curspan_mvwin(&mut self.sys, win, y, x)?;
        Ok(())
    }

    /// Lets a derived window or pad show the part of its parent from another line and column on. It
    /// stays where it is on the screen.
    ///
    /// # Errors
    ///
    /// [`NoSuchWindow`](Refusal::NoSuchWindow), [`NotDerived`](Refusal::NotDerived),
    /// [`OutsideParent`](Refusal::OutsideParent).
    #[inline]
    pub fn mvderwin(&mut self, win: impl Into<Window>, y: u32, x: u32) -> Result<(), Refusal> {
        let win = self.windows.number(win.into().0);
        sys::curspan_mvderwin(&mut self.sys, win, y, x)?;
        Ok(())
    }

    /// Moves the cursor to line `y` and column `x`.
    ///
    /// # Errors
    ///
    /// [`NoSuchWindow`](Refusal::NoSuchWindow); [`OutsideWindow`](Refusal::OutsideWindow) for a
    /// place that the window hasn't.
    #[inline]
    pub fn wmove(&mut self, win: impl Into<Window>, y: u32, x: u32) -> Result<(), Refusal> {
        let win = self.windows.number(win.into().0);
        sys::curspan_wmove(&mut self.sys, win, y, x)?;
        Ok(())
    }

    /// Writes a character at the cursor, which advances, from the last column to the next line.
    /// Past the last column of the scroll region's last line the region scrolls, if the window may
    /// scroll, and else the cursor stays there. A newline (code 10), carriage return (13) or
    /// backspace (8) moves the cursor.
    ///
    /// # Errors
    ///
    /// [`NoSuchWindow`](Refusal::NoSuchWindow); [`BadCharacter`](Refusal::BadCharacter) for another
    /// character outside 32 to 126.
    #[inline]
    pub fn waddch(&mut self, win: impl Into<Window>, ch: char) -> Result<(), Refusal> {
        let win = self.windows.number(win.into().0);
        sys::curspan_waddch(&mut self.sys, win, u32::from(ch))?;
        Ok(())
    }

    /// Inserts a character at the cursor, which stays: the cells from there on go one column right,
    /// and the last is lost.
    ///
    /// # Errors
    ///
    /// [`NoSuchWindow`](Refusal::NoSuchWindow); [`BadCharacter`](Refusal::BadCharacter) for a
    /// character outside 32 to 126.
    #[inline]
    pub fn winsch(&mut self, win: impl Into<Window>, ch: char) -> Result<(), Refusal> {
        let win = self.windows.number(win.into().0);
        sys::curspan_winsch(&mut self.sys, win, u32::from(ch))?;
        Ok(())
    }

    /// Deletes the character at the cursor, which stays: the cells after it go one column left, and
    /// the last is set to the background.
    ///
    /// # Errors
    ///
    /// [`NoSuchWindow`](Refusal::NoSuchWindow).
    #[inline]
    pub fn wdelch(&mut self, win: impl Into<Window>) -> Result<(), Refusal> {
        let win = self.windows.number(win.into().0);
        sys::curspan_wdelch(&mut self.sys, win)?;
        Ok(())
    }

    /// Moves the cursor's line and those below down by one, loses the last, and sets the cursor's
    /// line to the background.
    ///
    /// # Errors
    ///
    /// [`NoSuchWindow`](Refusal::NoSuchWindow).
    #[inline]
    pub fn winsertln(&mut self, win: impl Into<Window>) -> Result<(), Refusal> {
        let win = self.windows.number(win.into().0);
        sys::curspan_winsertln(&mut self.sys, win)?;
        Ok(())
    }

    /// Moves the lines below the cursor's up by one, and sets the last line to the background.
    ///
    /// # Errors
    ///
    /// [`NoSuchWindow`](Refusal::NoSuchWindow).
    #[inline]
    pub fn wdeleteln(&mut self, win: impl Into<Window>) -> Result<(), Refusal> {
        let win = self.windows.number(win.into().0);
        sys::curspan_wdeleteln(&mut self.sys, win)?;
        Ok(())
    }

    /// Sets all cells to the background, and the cursor to line 0 and column 0.
    ///
    /// # Errors
    ///
    /// [`NoSuchWindow`](Refusal::NoSuchWindow).
    #[inline]
    pub fn werase(&mut self, win: impl Into<Window>) -> Result<(), Refusal> {
        let win = self.windows.number(win.into().0);
        sys::curspan_werase(&mut self.sys, win)?;
        Ok(())
    }

    /// Does as [`werase`](Screen::werase), and asks for a clear screen where the window is next
    /// taken into the virtual screen.
    ///
    /// # Errors
    ///
    /// [`NoSuchWindow`](Refusal::NoSuchWindow).
    #[inline]
    pub fn wclear(&mut self, win: impl Into<Window>) -> Result<(), Refusal> {
        let win = self.windows.number(win.into().0);
        sys::curspan_wclear(&mut self.sys, win)?;
        Ok(())
    }

    /// Sets the cells from the cursor to the end of its line to the background.
    ///
    /// # Errors
    ///
    /// [`NoSuchWindow`](Refusal::NoSuchWindow).
    #[inline]
    pub fn wclrtoeol(&mut self, win: impl Into<Window>) -> Result<(), Refusal> {
        let win = self.windows.number(win.into().0);
        sys::curspan_wclrtoeol(&mut self.sys, win)?;
        Ok(())
    }

    /// Sets the cells from the cursor to the end of its line, and all lines below, to the
    /// background.
    ///
    /// # Errors
    ///
    /// [`NoSuchWindow`](Refusal::NoSuchWindow).
    #[inline]
    pub fn wclrtobot(&mut self, win: impl Into<Window>) -> Result<(), Refusal> {
        let win = self.windows.number(win.into().0);
        sys::curspan_wclrtobot(&mut self.sys, win)?;
        Ok(())
    }

    /// Moves the lines of the scroll region up by `n`, or down by `-n` for a negative one. Those
    /// that leave it are lost, and those that come in are set to the background. The cursor stays.
    ///
    /// # Errors
    ///
    /// [`NoSuchWindow`](Refusal::NoSuchWindow); [`ScrollingOff`](Refusal::ScrollingOff) for a
    /// window that doesn't scroll.
    #[inline]
    pub fn wscrl(&mut self, win: impl Into<Window>, n: i32) -> Result<(), Refusal> {
        let win = self.windows.number(win.into().0);
        sys::curspan_wscrl(&mut self.sys, win, n)?;
        Ok(())
    }

    /// Sets the scroll region to the lines from `top` to `bottom`, both inclusive.
    ///
    /// # Errors
    ///
    /// [`NoSuchWindow`](Refusal::NoSuchWindow); [`BadRegion`](Refusal::BadRegion) if `top` is after
    /// `bottom` or `bottom` outside the window.
    #[inline]
    pub fn wsetscrreg(
        &mut self,
        win: impl Into<Window>,
        top: u32,
        bottom: u32,
    ) -> Result<(), Refusal> {
        let win = self.windows.number(win.into().0);
        sys::curspan_wsetscrreg(&mut self.sys, win, top, bottom)?;
        Ok(())
    }

    /// Sets whether the window scrolls where the cursor leaves the last line of its region. At
    /// first it doesn't.
    ///
    /// # Errors
    ///
    /// [`NoSuchWindow`](Refusal::NoSuchWindow).
    #[inline]
    pub fn scrollok(&mut self, win: impl Into<Window>, flag: bool) -> Result<(), Refusal> {
        let win = self.windows.number(win.into().0);
        sys::curspan_scrollok(&mut self.sys, win, flag)?;
        Ok(())
    }

    /// Sets whether the window asks for a clear screen where it is next taken into the virtual
    /// screen.
    ///
    /// # Errors
    ///
    /// [`NoSuchWindow`](Refusal::NoSuchWindow).
    #[inline]
    pub fn clearok(&mut self, win: impl Into<Window>, flag: bool) -> Result<(), Refusal> {
        let win = self.windows.number(win.into().0);
        sys::curspan_clearok(&mut self.sys, win, flag)?;
        Ok(())
    }

    /// Sets the attributes that written characters get.
    ///
    /// # Errors
    ///
    /// [`NoSuchWindow`](Refusal::NoSuchWindow).
    #[inline]
    pub fn wattrset(&mut self, win: impl Into<Window>, attrs: Attributes) -> Result<(), Refusal> {
        let win = self.windows.number(win.into().0);
        sys::curspan_wattrset(&mut self.sys, win, attrs.bits())?;
        Ok(())
    }

    /// Adds attributes to those that written characters get.
    ///
    /// # Errors
    ///
    /// [`NoSuchWindow`](Refusal::NoSuchWindow).
    #[inline]
    pub fn wattron(&mut self, win: impl Into<Window>, attrs: Attributes) -> Result<(), Refusal> {
        let win = self.windows.number(win.into().0);
        sys::curspan_wattron(&mut self.sys, win, attrs.bits())?;
        Ok(())
    }

    /// Takes attributes from those that written characters get.
    ///
    /// # Errors
    ///
    /// [`NoSuchWindow`](Refusal::NoSuchWindow).
    #[inline]
    pub fn wattroff(&mut self, win: impl Into<Window>, attrs: Attributes) -> Result<(), Refusal> {
        let win = self.windows.number(win.into().0);
        sys::curspan_wattroff(&mut self.sys, win, attrs.bits())?;
        Ok(())
    }

    /// Sets the background to a character with attributes, of pair 0. No cell is written.
    ///
    /// # Errors
    ///
    /// [`NoSuchWindow`](Refusal::NoSuchWindow); [`BadCharacter`](Refusal::BadCharacter) for a
    /// character outside 32 to 126.
    #[inline]
    pub fn wbkgdset(
        &mut self,
        win: impl Into<Window>,
        attrs: Attributes,
        ch: char,
    ) -> Result<(), Refusal> {
        let win = self.windows.number(win.into().0);
        sys::curspan_wbkgdset(&mut self.sys, win, attrs.bits(), u32::from(ch))?;
        Ok(())
    }

    /// Sets the colour pair that written characters get.
    ///
    /// # Errors
    ///
    /// [`NoSuchWindow`](Refusal::NoSuchWindow); [`BadPair`](Refusal::BadPair) for a number past 63.
    #[inline]
    pub fn wcolor_set(&mut self, win: impl Into<Window>, pair: u32) -> Result<(), Refusal> {
        let win = self.windows.number(win.into().0);
        sys::curspan_wcolor_set(&mut self.sys, win, pair)?;
        Ok(())
    }

    /// Sets the colour pair of the background. No cell is written.
    ///
    /// # Errors
    ///
    /// [`NoSuchWindow`](Refusal::NoSuchWindow); [`BadPair`](Refusal::BadPair) for a number past 63.
    #[inline]
    pub fn wbkgdpair(&mut self, win: impl Into<Window>, pair: u32) -> Result<(), Refusal> {
        let win = self.windows.number(win.into().0);
        sys::curspan_wbkgdpair(&mut self.sys, win, pair)?;
        Ok(())
    }

    /// Copies the cells of `src` that aren't spaces to `dst`, at the places of the screen that both
    /// cover.
    ///
    /// # Errors
    ///
    /// [`NoSuchWindow`](Refusal::NoSuchWindow), [`IsPad`](Refusal::IsPad), each for either window.
    #[inline]
    pub fn overlay(&mut self, src: Window, dst: Window) -> Result<(), Refusal> {
        let src = self.windows.number(src.0);
        let dst = self.windows.number(dst.0);
        sys::curspan_overlay(&mut self.sys, src, dst)?;
        Ok(())
    }

    /// Copies all cells of `src` to `dst`, at the places of the screen that both cover.
    ///
    /// # Errors
    ///
    /// [`NoSuchWindow`](Refusal::NoSuchWindow), [`IsPad`](Refusal::IsPad), each for either window.
    #[inline]
    pub fn overwrite(&mut self, src: Window, dst: Window) -> Result<(), Refusal> {
        let src = self.windows.number(src.0);
        let dst = self.windows.number(dst.0);
        sys::curspan_overwrite(&mut self.sys, src, dst)?;
        Ok(())
    }

    /// Copies the cells of `src` from line `sminrow` and column `smincol` on to the lines from
    /// `dminrow` to `dmaxrow` and the columns from `dmincol` to `dmaxcol` of `dst`, all inclusive;
    /// if `overlay` is set, spaces are left out. Windows and pads may be mixed.
    ///
    /// # Errors
    ///
    /// [`NoSuchWindow`](Refusal::NoSuchWindow) for either window;
    /// [`BadRectangle`](Refusal::BadRectangle) if a last line or column comes before its first;
    /// [`OutsideWindow`](Refusal::OutsideWindow) if the rectangle isn't in `dst`, or that of the
    /// same size not in `src`.
    #[inline]
    pub fn copywin(
        &mut self,
        src: impl Into<Window>,
        dst: impl Into<Window>,
        sminrow: u32,
        smincol: u32,
        dminrow: u32,
        dmincol: u32,
        dmaxrow: u32,
        dmaxcol: u32,
        overlay: bool,
    ) -> Result<(), Refusal> {
        let src = self.windows.number(src.into().0);
        let dst = self.windows.number(dst.into().0);
        sys::curspan_copywin(
            &mut self.sys,
            src,
            dst,
            sminrow,
            smincol,
            dminrow,
            dmincol,
            dmaxrow,
            dmaxcol,
            overlay,
        )?;
        Ok(())
    }

    /// Touches all of a window, as if it had been written.
    ///
    /// # Errors
    ///
    /// [`NoSuchWindow`](Refusal::NoSuchWindow).
    #[inline]
    pub fn touchwin(&mut self, win: impl Into<Window>) -> Result<(), Refusal> {
        let win = self.windows.number(win.into().0);
        sys::curspan_touchwin(&mut self.sys, win)?;
        Ok(())
    }

    /// Untouches all of a window.
    ///
    /// # Errors
    ///
    /// [`NoSuchWindow`](Refusal::NoSuchWindow).
    #[inline]
    pub fn untouchwin(&mut self, win: impl Into<Window>) -> Result<(), Refusal> {
        let win = self.windows.number(win.into().0);
        sys::curspan_untouchwin(&mut self.sys, win)?;
        Ok(())
    }

    /// Touches all of `n` lines from line `y` on.
    ///
    /// # Errors
    ///
    /// [`NoSuchWindow`](Refusal::NoSuchWindow); [`OutsideWindow`](Refusal::OutsideWindow) if the
    /// window hasn't line `y`, or not `n` lines from it on.
    #[inline]
    pub fn touchline(&mut self, win: impl Into<Window>, y: u32, n: u32) -> Result<(), Refusal> {
        let win = self.windows.number(win.into().0);
        sys::curspan_touchline(&mut self.sys, win, y, n)?;
        Ok(())
    }

    /// Touches all of `n` lines from line `y` on, or untouches them if `flag` is not set.
    ///
    /// # Errors
    ///
    /// [`NoSuchWindow`](Refusal::NoSuchWindow); [`OutsideWindow`](Refusal::OutsideWindow) if the
    /// window hasn't line `y`, or not `n` lines from it on.
    #[inline]
    pub fn wtouchln(
        &mut self,
        win: impl Into<Window>,
        y: u32,
        n: u32,
        flag: bool,
    ) -> Result<(), Refusal> {
        let win = self.windows.number(win.into().0);
        sys::curspan_wtouchln(&mut self.sys, win, y, n, flag)?;
        Ok(())
    }

    /// Touches, in each ancestor of a window, the places that show a touched cell of the window.
    ///
    /// # Errors
    ///
    /// [`NoSuchWindow`](Refusal::NoSuchWindow).
    #[inline]
    pub fn wsyncup(&mut self, win: impl Into<Window>) -> Result<(), Refusal> {
        let win = self.windows.number(win.into().0);
        sys::curspan_wsyncup(&mut self.sys, win)?;
        Ok(())
    }

    /// Touches, in a window, the places that show a touched cell of an ancestor.
    ///
    /// # Errors
    ///
    /// [`NoSuchWindow`](Refusal::NoSuchWindow).
    #[inline]
    pub fn wsyncdown(&mut self, win: impl Into<Window>) -> Result<(), Refusal> {
        let win = self.windows.number(win.into().0);
        sys::curspan_wsyncdown(&mut self.sys, win)?;
        Ok(())
    }

    /// Whether line `y` of a window is touched.
    ///
    /// # Errors
    ///
    /// [`NoSuchWindow`](Refusal::NoSuchWindow); [`OutsideWindow`](Refusal::OutsideWindow) if the
    /// window hasn't line `y`.
    #[inline]
    pub fn is_linetouched(&self, win: impl Into<Window>, y: u32) -> Result<bool, Refusal> {
        let win = self.windows.number(win.into().0);
        let answer = sys::curspan_is_linetouched(&self.sys, win, y)?;
        Ok(answer.first != 0)
    }

    /// Whether some line of a window is touched.
    ///
    /// # Errors
    ///
    /// [`NoSuchWindow`](Refusal::NoSuchWindow).
    #[inline]
    pub fn is_wintouched(&self, win: impl Into<Window>) -> Result<bool, Refusal> {
        let win = self.windows.number(win.into().0);
        let answer = sys::curspan_is_wintouched(&self.sys, win)?;
        Ok(answer.first != 0)
    }

    /// The line and the column of the cursor.
    ///
    /// # Errors
    ///
    /// [`NoSuchWindow`](Refusal::NoSuchWindow).
    #[inline]
    pub fn getyx(&self, win: impl Into<Window>) -> Result<(u32, u32), Refusal> {
        let win = self.windows.number(win.into().0);
        let answer = sys::curspan_getyx(&self.sys, win)?;
        Ok((answer.first, answer.second))
    }

    /// The line and the column of the screen where the window begins.
    ///
    /// # Errors
    ///
    /// [`NoSuchWindow`](Refusal::NoSuchWindow), [`IsPad`](Refusal::IsPad).
    #[inline]
    pub fn getbegyx(&self, win: Window) -> Result<(u32, u32), Refusal> {
        let win = self.windows.number(win.0);
        let answer = sys::curspan_getbegyx(&self.sys, win)?;
        Ok((answer.first, answer.second))
    }

    /// The number of lines, and the number of columns.
    ///
    /// # Errors
    ///
    /// [`NoSuchWindow`](Refusal::NoSuchWindow).
    #[inline]
    pub fn getmaxyx(&self, win: impl Into<Window>) -> Result<(u32, u32), Refusal> {
        let win = self.windows.number(win.into().0);
        let answer = sys::curspan_getmaxyx(&self.sys, win)?;
        Ok((answer.first, answer.second))
    }

    /// The line and the column of the parent where a derived window begins.
    ///
    /// # Errors
    ///
    /// [`NoSuchWindow`](Refusal::NoSuchWindow), [`NotDerived`](Refusal::NotDerived).
    #[inline]
    pub fn getparyx(&self, win: impl Into<Window>) -> Result<(u32, u32), Refusal> {
        let win = self.windows.number(win.into().0);
        let answer = sys::curspan_getparyx(&self.sys, win)?;
        Ok((answer.first, answer.second))
    }

    /// The cell at the cursor.
    ///
    /// # Errors
    ///
    /// [`NoSuchWindow`](Refusal::NoSuchWindow).
    #[inline]
    pub fn winch(&self, win: impl Into<Window>) -> Result<Cell, Refusal> {
        let win = self.windows.number(win.into().0);
        let answer = sys::curspan_winch(&self.sys, win)?;
        Ok(Cell(answer.first))
    }

    /// Puts a window into a new panel, visible on top. The number is the least free one from 1 on.
    ///
    /// # Errors
    ///
    /// [`NoSuchWindow`](Refusal::NoSuchWindow), [`StandardScreen`](Refusal::StandardScreen),
    /// [`IsPad`](Refusal::IsPad), [`InPanel`](Refusal::InPanel), [`TooMany`](Refusal::TooMany),
    /// [`NoMemory`](Refusal::NoMemory).
    #[inline]
    pub fn new_panel(&mut self, win: Window) -> Result<Panel, Refusal> {
        let win = self.windows.number(win.0);
        let answer = sys::curspan_new_panel(&mut self.sys, win)?;
        self.added_panel(answer.first)
    }

    /// Puts a panel on top, whether it was hidden or visible.
    ///
    /// # Errors
    ///
    /// [`NoSuchPanel`](Refusal::NoSuchPanel).
    #[inline]
    pub fn show_panel(&mut self, panel: Panel) -> Result<(), Refusal> {
        let panel = self.panels.number(panel.0);
        sys::curspan_show_panel(&mut self.sys, panel)?;
        Ok(())
    }

    /// Takes a visible panel out of the order.
    ///
    /// # Errors
    ///
    /// [`NoSuchPanel`](Refusal::NoSuchPanel), [`Hidden`](Refusal::Hidden).
    #[inline]
    pub fn hide_panel(&mut self, panel: Panel) -> Result<(), Refusal> {
        let panel = self.panels.number(panel.0);
        sys::curspan_hide_panel(&mut self.sys, panel)?;
        Ok(())
    }

    /// Moves a visible panel to the top.
    ///
    /// # Errors
    ///
    /// [`NoSuchPanel`](Refusal::NoSuchPanel), [`Hidden`](Refusal::Hidden).
    #[inline]
    pub fn top_panel(&mut self, panel: Panel) -> Result<(), Refusal> {
        let panel = self.panels.number(panel.0);
        sys::curspan_top_panel(&mut self.sys, panel)?;
        Ok(())
    }

    /// Moves a visible panel to the bottom.
    ///
    /// # Errors
    ///
    /// [`NoSuchPanel`](Refusal::NoSuchPanel), [`Hidden`](Refusal::Hidden).
    #[inline]
    pub fn bottom_panel(&mut self, panel: Panel) -> Result<(), Refusal> {
        let panel = self.panels.number(panel.0);
        sys::curspan_bottom_panel(&mut self.sys, panel)?;
        Ok(())
    }

    /// Moves the window of a panel, visible or hidden, to a place of the screen.
    ///
    /// # Errors
    ///
    /// [`NoSuchPanel`](Refusal::NoSuchPanel), [`OffScreen`](Refusal::OffScreen).
    #[inline]
    pub fn move_panel(&mut self, panel: Panel, y: u32, x: u32) -> Result<(), Refusal> {
        let panel = self.panels.number(panel.0);
        sys::curspan_move_panel(&mut self.sys, panel, y, x)?;
        Ok(())
    }

    /// Gives a panel another window. The panel keeps its depth, or stays hidden.
    ///
    /// # Errors
    ///
    /// [`NoSuchPanel`](Refusal::NoSuchPanel), [`NoSuchWindow`](Refusal::NoSuchWindow),
    /// [`StandardScreen`](Refusal::StandardScreen), [`IsPad`](Refusal::IsPad),
    /// [`InPanel`](Refusal::InPanel).
    #[inline]
    pub fn replace_panel(&mut self, panel: Panel, win: Window) -> Result<(), Refusal> {
        let panel = self.panels.number(panel.0);
        let win = self.windows.number(win.0);
        sys::curspan_replace_panel(&mut self.sys, panel, win)?;
        Ok(())
    }

    /// The panel right above a visible one; of none, the bottom one.
    ///
    /// # Errors
    ///
    /// [`NoSuchPanel`](Refusal::NoSuchPanel), [`Hidden`](Refusal::Hidden).
    #[inline]
    pub fn panel_above(&self, panel: Option<Panel>) -> Result<Option<Panel>, Refusal> {
        let panel = panel.map_or(0, |panel| self.panels.number(panel.0));
        let answer = sys::curspan_panel_above(&self.sys, panel)?;
        Ok(self.panel(answer.first))
    }

    /// The panel right below a visible one; of none, the top one.
    ///
    /// # Errors
    ///
    /// [`NoSuchPanel`](Refusal::NoSuchPanel), [`Hidden`](Refusal::Hidden).
    #[inline]
    pub fn panel_below(&self, panel: Option<Panel>) -> Result<Option<Panel>, Refusal> {
        let panel = panel.map_or(0, |panel| self.panels.number(panel.0));
        let answer = sys::curspan_panel_below(&self.sys, panel)?;
        Ok(self.panel(answer.first))
    }

    /// The window of a panel.
    ///
    /// # Errors
    ///
    /// [`NoSuchPanel`](Refusal::NoSuchPanel).
    #[inline]
    pub fn panel_window(&self, panel: Panel) -> Result<Window, Refusal> {
        let panel = self.panels.number(panel.0);
        let answer = sys::curspan_panel_window(&self.sys, panel)?;
        Ok(self.window(answer.first))
    }

    /// Whether a panel is hidden.
    ///
    /// # Errors
    ///
    /// [`NoSuchPanel`](Refusal::NoSuchPanel).
    #[inline]
    pub fn panel_hidden(&self, panel: Panel) -> Result<bool, Refusal> {
        let panel = self.panels.number(panel.0);
        let answer = sys::curspan_panel_hidden(&self.sys, panel)?;
        Ok(answer.first != 0)
    }

    /// Takes what is touched of a window into the virtual screen, at the window's place, with its
    /// cursor. Then no place of it is touched; and if it asked for a clear screen, the virtual
    /// screen asks for it instead.
    ///
    /// # Errors
    ///
    /// [`NoSuchWindow`](Refusal::NoSuchWindow), [`IsPad`](Refusal::IsPad).
    #[inline]
    pub fn wnoutrefresh(&mut self, win: Window) -> Result<(), Refusal> {
        let win = self.windows.number(win.0);
        sys::curspan_wnoutrefresh(&mut self.sys, win)?;
        Ok(())
    }

    /// Takes the cells of a pad from line `pminrow` and column `pmincol` on into the lines from
    /// `sminrow` to `smaxrow` and the columns from `smincol` to `smaxcol` of the virtual screen,
    /// all inclusive, whether they are touched or not. The cursor stays where it is. Then those
    /// lines of the pad are untouched, also beside the rectangle; and if the pad asked for a clear
    /// screen, the virtual screen asks for it instead.
    ///
    /// # Errors
    ///
    /// [`NoSuchWindow`](Refusal::NoSuchWindow), [`NotPad`](Refusal::NotPad);
    /// [`BadRectangle`](Refusal::BadRectangle) if a last line or column comes before its first;
    /// [`OutsideWindow`](Refusal::OutsideWindow) if the rectangle isn't in the pad;
    /// [`OffScreen`](Refusal::OffScreen) if it isn't on the screen.
    #[inline]
    pub fn pnoutrefresh(
        &mut self,
        pad: Pad,
        pminrow: u32,
        pmincol: u32,
        sminrow: u32,
        smincol: u32,
        smaxrow: u32,
        smaxcol: u32,
    ) -> Result<(), Refusal> {
        let pad = self.windows.number(pad.0);
        sys::curspan_pnoutrefresh(
            &mut self.sys,
            pad,
            pminrow,
            pmincol,
            sminrow,
            smincol,
            smaxrow,
            smaxcol,
        )?;
        Ok(())
    }

    /// Gives a colour pair a foreground and a background: 0 black, 1 red, 2 green, 3 yellow, 4
    /// blue, 5 magenta, 6 cyan, 7 white. What was written in the pair changes in the next picture.
    ///
    /// # Errors
    ///
    /// [`BadPair`](Refusal::BadPair) for pair 0, for one past 63, and for a colour past 7.
    #[inline]
    pub fn init_pair(
        &mut self,
        pair: u32,
        foreground: Color,
        background: Color,
    ) -> Result<(), Refusal> {
        sys::curspan_init_pair(
            &mut self.sys,
            pair,
            u32::from(foreground),
            u32::from(background),
        )?;
        Ok(())
    }
}
