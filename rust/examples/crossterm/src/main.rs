//! Windows of Curspan on a terminal of crossterm, which sets modes, reads keys and knows the size.
//! Arrows move a window, which shows other keys, and `q` ends it.

use crossterm::event::{self, Event, KeyCode};
use crossterm::terminal::{self, EnterAlternateScreen, LeaveAlternateScreen};
use crossterm::{cursor, execute};
use curspan::{plain, Attributes, Error, Panel, Refusal, Screen, Window, STDSCR};
use std::io::{self, Stdout};

/// Gives the terminal back where it is dropped.
struct Page;

impl Page {
    fn enter() -> io::Result<Page> {
        terminal::enable_raw_mode()?;
        let page = Page;
        execute!(io::stdout(), EnterAlternateScreen, cursor::Hide)?;
        Ok(page)
    }
}

impl Drop for Page {
    fn drop(&mut self) {
        let _ = execute!(io::stdout(), cursor::Show, LeaveAlternateScreen);
        let _ = terminal::disable_raw_mode();
    }
}

/// A screen of the terminal's size, with a window in a panel.
struct View {
    screen: Screen<Stdout>,
    window: Window,
    panel: Panel,
}

impl View {
    fn new() -> Result<View, Error> {
        let (columns, lines) = terminal::size()?;
        let mut screen = Screen::new(io::stdout(), lines.into(), columns.into())?;
        screen.waddstr(STDSCR, "arrows move the window, q quit")?;
        let window = screen.newwin(3, 24, 2, 4)?;
        screen.wbkgdset(window, Attributes::REVERSE, ' ')?;
        screen.werase(window)?;
        let panel = screen.new_panel(window)?;
        Ok(View {
            screen,
            window,
            panel,
        })
    }

    /// Moves the window, unless a part of it would be off the screen.
    fn go(&mut self, down: i32, right: i32) -> Result<(), Refusal> {
        let (y, x) = self.screen.getbegyx(self.window)?;
        let to = |from: u32, by: i32| u32::try_from(from as i32 + by).unwrap_or(0);
        match self
            .screen
            .move_panel(self.panel, to(y, down), to(x, right))
        {
            Err(Refusal::OffScreen) => Ok(()),
            answer => answer,
        }
    }

    fn say(&mut self, text: &str) -> Result<(), Refusal> {
        self.screen.werase(self.window)?;
        self.screen.mvwaddstr(self.window, 1, 1, plain(text))
    }
}

fn main() -> Result<(), Error> {
    let _page = Page::enter()?;
    let mut view = View::new()?;
    loop {
        view.screen.update_panels();
        view.screen.doupdate()?;
        match event::read()? {
            Event::Resize(..) => view = View::new()?,
            Event::Key(key) => match key.code {
                KeyCode::Char('q') => return Ok(()),
                KeyCode::Up => view.go(-1, 0)?,
                KeyCode::Down => view.go(1, 0)?,
                KeyCode::Left => view.go(0, -1)?,
                KeyCode::Right => view.go(0, 1)?,
                code => view.say(&format!("{code:?}"))?,
            },
            _ => {}
        }
    }
}
