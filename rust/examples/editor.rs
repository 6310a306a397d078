//! An editor of one page: `cargo run --example editor FILE`.
//!
//! Arrows move, letters are inserted, Enter goes to the next line, Backspace deletes to the left,
//! ^N inserts a line, ^K deletes one, ^S writes the file, and ^Q ends. What is past the page's
//! edges isn't read.

use curspan::{Attributes, Error, Refusal, Screen, Window, STDSCR};
use std::io::{self, Stdout};
use std::{env, fs, process};
use terminal::{Key, Terminal};

mod terminal;

/// A page over a line that tells what became of the file. Both are parts of the standard screen.
struct Editor {
    screen: Screen<Stdout>,
    page: Window,
    status: Window,
    file: String,
}

impl Editor {
    fn new(file: String, lines: u32, columns: u32) -> Result<Editor, Refusal> {
        let mut screen = Screen::new(io::stdout(), lines, columns)?;
        let page = screen.derwin(STDSCR, lines - 1, columns, 0, 0)?;
        let status = screen.derwin(STDSCR, 1, columns, lines - 1, 0)?;
        screen.wbkgdset(status, Attributes::REVERSE, ' ')?;
        Ok(Editor {
            screen,
            page,
            status,
            file,
        })
    }

    fn tell(&mut self, what: &str) -> Result<(), Refusal> {
        let (_, columns) = self.screen.getmaxyx(self.status)?;
        let text = format!(
            " {what} {}   ^S write  ^N insert  ^K delete  ^Q end",
            self.file
        );
        let text: String = text
            .chars()
            .filter(char::is_ascii)
            .take(columns as usize)
            .collect();
        self.screen.werase(self.status)?;
        self.screen.waddstr(self.status, text)
    }

    /// Reads as much of the file as the page has room for. What it can't show becomes a question
    /// mark.
    fn read(&mut self) -> Result<(), Error> {
        let text = match fs::read(&self.file) {
            Err(error) if error.kind() == io::ErrorKind::NotFound => Vec::new(),
            read => read?,
        };
        let (lines, columns) = self.screen.getmaxyx(self.page)?;
        for (y, line) in (0..lines).zip(text.split(|&byte| byte == b'\n')) {
            let shown = |&byte| {
                if matches!(byte, b' '..=b'~') {
                    byte
                } else {
                    b'?'
                }
            };
            let line: Vec<u8> = line.iter().map(shown).take(columns as usize).collect();
            self.screen.mvwaddstr(self.page, y, 0, line)?;
        }
        self.screen.wmove(self.page, 0, 0)?;
        Ok(())
    }

    /// The lines of the page, without blanks at their ends and empty lines at its end.
    fn text(&self) -> Result<String, Refusal> {
        let (lines, _) = self.screen.getmaxyx(self.page)?;
        let mut text = String::new();
        for y in 0..lines {
            let row = self.screen.row(self.page, y)?;
            let line: String = row.iter().map(|cell| cell.character()).collect();
            text.push_str(line.trim_end());
            text.push('\n');
        }
        text.truncate(text.trim_end().len());
        if !text.is_empty() {
            text.push('\n');
        }
        Ok(text)
    }

    fn write(&mut self) -> Result<(), Refusal> {
        let text = self.text()?;
        match fs::write(&self.file, text) {
            Ok(()) => self.tell("written:"),
            Err(error) => self.tell(&format!("not written: {error}:")),
        }
    }

    /// Moves the cursor by lines and columns, if there is such a place.
    fn move_by(&mut self, down: i32, right: i32) -> Result<(), Refusal> {
        let (y, x) = self.screen.getyx(self.page)?;
        let place = (y.wrapping_add(down as u32), x.wrapping_add(right as u32));
        match self.screen.wmove(self.page, place.0, place.1) {
            Err(Refusal::OutsideWindow) => Ok(()),
            moved => moved,
        }
    }

    /// Does what a key says, and answers whether the editor goes on.
    fn obey(&mut self, key: Key) -> Result<bool, Refusal> {
        match key {
            Key::Control('Q') => return Ok(false),
            Key::Control('S') => self.write()?,
            Key::Control('N') => self.screen.winsertln(self.page)?,
            Key::Control('K') => self.screen.wdeleteln(self.page)?,
            Key::Up => self.move_by(-1, 0)?,
            Key::Down => self.move_by(1, 0)?,
            Key::Right => self.move_by(0, 1)?,
            Key::Left => self.move_by(0, -1)?,
            Key::Enter => {
                self.screen.waddch(self.page, '\r')?;
                self.move_by(1, 0)?;
            }
            Key::Backspace => {
                let before = self.screen.getyx(self.page)?;
                self.move_by(0, -1)?;
                if self.screen.getyx(self.page)? != before {
                    self.screen.wdelch(self.page)?;
                }
            }
            Key::Char(letter) => {
                self.screen.winsch(self.page, letter)?;
                self.move_by(0, 1)?;
            }
            Key::Tab | Key::Escape | Key::Control(_) | Key::NoneInTime => {}
        }
        Ok(true)
    }

    /// Shows the page, with its cursor.
    fn show(&mut self) -> Result<(), Error> {
        self.screen.wnoutrefresh(self.status)?;
        self.screen.wnoutrefresh(self.page)?;
        self.screen.doupdate()?;
        Ok(())
    }

    fn run(&mut self, terminal: &mut Terminal) -> Result<(), Error> {
        self.read()?;
        self.tell("one page of")?;
        self.show()?;
        while let Some(key) = terminal.key()? {
            if !self.obey(key)? {
                break;
            }
            self.show()?;
        }
        Ok(())
    }
}

fn main() -> Result<(), Error> {
    let file = env::args().nth(1).unwrap_or_else(|| {
        eprintln!("usage: editor FILE");
        process::exit(2)
    });
    let mut terminal = Terminal::take(None);
    let (lines, columns) = terminal.size();
    Editor::new(file, lines, columns)?.run(&mut terminal)
}
