//! The dialogs of an installer: a question, a list to choose of, a bar that grows, and a last word.
//! Nothing is installed.
//!
//! Tab and the arrows move, the space bar chooses, Enter goes on, and Escape ends.

use curspan::{Attributes, Color, Error, Panel, Refusal, Screen, Window, STDSCR};
use std::io::Stdout;
use std::{thread, time::Duration};
use terminal::{Key, Terminal};

mod terminal;

const COLUMNS: u32 = 44;
const DESKTOP: u32 = 1;

/// What can be installed, and whether it is to be.
struct Part {
    name: &'static str,
    is_chosen: bool,
}

/// A window with a frame, in the middle of the screen and on top.
struct Dialog {
    window: Window,
    panel: Panel,
}

struct Installer {
    screen: Screen<Stdout>,
    terminal: Terminal,
}

impl Installer {
    fn new() -> Result<Installer, Error> {
        let terminal = Terminal::take(None);
        let (lines, columns) = terminal.size();
        let mut screen = Screen::new(std::io::stdout(), lines, columns)?;
        screen.init_pair(DESKTOP, Color::White, Color::Blue)?;
        screen.wbkgdpair(STDSCR, DESKTOP)?;
        screen.werase(STDSCR)?;
        screen.wattron(STDSCR, Attributes::BOLD)?;
        screen.waddstr(STDSCR, " Installing an example")?;
        Ok(Installer { screen, terminal })
    }

    fn open(&mut self, lines: u32, title: &str) -> Result<Dialog, Refusal> {
        let (height, width) = self.screen.getmaxyx(STDSCR)?;
        let (y, x) = (
            height.saturating_sub(lines) / 2,
            width.saturating_sub(COLUMNS) / 2,
        );
        let window = self.screen.newwin(lines, COLUMNS, y, x)?;
        frame(&mut self.screen, window, title)?;
        let panel = self.screen.new_panel(window)?;
        Ok(Dialog { window, panel })
    }

    fn close(&mut self, dialog: Dialog) -> Result<(), Refusal> {
        self.screen.del_panel(dialog.panel)?;
        self.screen.delwin(dialog.window)
    }

    fn show(&mut self) -> Result<(), Error> {
        self.screen.update_panels();
        self.screen.doupdate()?;
        Ok(())
    }

    /// Shows what was drawn, and waits for the next key. Where none comes any more, that is as
    /// Escape.
    fn key(&mut self) -> Result<Key, Error> {
        self.show()?;
        Ok(self.terminal.key()?.unwrap_or(Key::Escape))
    }

    /// Asks a question, and answers which button was chosen, if one was.
    fn ask(&mut self, question: &str, buttons: &[&str]) -> Result<Option<usize>, Error> {
        let dialog = self.open(7, " Question ")?;
        let mut chosen = 0;
        self.screen.mvwaddstr(dialog.window, 2, 3, question)?;
        let answer = loop {
            self.screen.wmove(dialog.window, 4, 3)?;
            for (place, button) in buttons.iter().enumerate() {
                mark(&mut self.screen, dialog.window, place == chosen)?;
                self.screen
                    .waddstr(dialog.window, format!("[ {button} ]"))?;
                mark(&mut self.screen, dialog.window, false)?;
                self.screen.waddstr(dialog.window, "  ")?;
            }
            match self.key()? {
                Key::Tab | Key::Right => chosen = (chosen + 1).min(buttons.len() - 1),
                Key::Left => chosen = chosen.saturating_sub(1),
                Key::Enter => break Some(chosen),
                Key::Escape => break None,
                _ => {}
            }
        };
        self.close(dialog)?;
        Ok(answer)
    }

    /// Lets parts be chosen, and answers whether to go on.
    fn choose(&mut self, parts: &mut [Part]) -> Result<bool, Error> {
        let count = parts.len();
        let dialog = self.open(count as u32 + 4, " What is to be installed? ")?;
        let mut at = 0;
        let goes_on = loop {
            for (place, part) in parts.iter().enumerate() {
                mark(&mut self.screen, dialog.window, place == at)?;
                let sign = if part.is_chosen { 'x' } else { ' ' };
                let line = format!(" [{sign}] {:<30}", part.name);
                self.screen
                    .mvwaddstr(dialog.window, place as u32 + 2, 3, line)?;
            }
            mark(&mut self.screen, dialog.window, false)?;
            self.screen.wmove(dialog.window, at as u32 + 2, 5)?;
            match self.key()? {
                Key::Up => at = at.saturating_sub(1),
                Key::Down | Key::Tab => at = (at + 1).min(count - 1),
                Key::Char(' ') => parts[at].is_chosen = !parts[at].is_chosen,
                Key::Enter => break true,
                Key::Escape => break false,
                _ => {}
            }
        };
        self.close(dialog)?;
        Ok(goes_on)
    }

    /// Shows a bar that grows while parts are installed.
    fn install(&mut self, parts: &[Part]) -> Result<(), Error> {
        let dialog = self.open(6, " Installing ")?;
        let (line, column) = (3, 3);
        // The bar has no cells of its own: it is a part of the dialog's window.
        let bar = self
            .screen
            .derwin(dialog.window, 1, COLUMNS - 2 * column, line, column)?;
        let (_, width) = self.screen.getmaxyx(bar)?;
        let chosen: Vec<&Part> = parts.iter().filter(|part| part.is_chosen).collect();
        let steps = chosen.len() as u32 * 5;
        for step in 1..=steps {
            let part = chosen[(step - 1) as usize / 5];
            let line = format!("{:<30}{:>3} %", part.name, 100 * step / steps);
            self.screen.mvwaddstr(dialog.window, 2, 3, line)?;
            self.screen
                .mvwaddstr(bar, 0, 0, "#".repeat((width * step / steps) as usize))?;
            self.show()?;
            thread::sleep(Duration::from_millis(40));
        }
        self.screen.delwin(bar)?;
        self.close(dialog)?;
        Ok(())
    }

    fn run(&mut self) -> Result<(), Error> {
        let mut parts = [
            Part {
                name: "the program",
                is_chosen: true,
            },
            Part {
                name: "the library",
                is_chosen: true,
            },
            Part {
                name: "manual pages",
                is_chosen: false,
            },
        ];
        let install = self.ask(
            "Install an example, which does nothing?",
            &["Install", "Cancel"],
        )?;
        if install == Some(0) && self.choose(&mut parts)? {
            self.install(&parts)?;
            self.ask("All is installed.", &["End"])?;
        }
        Ok(())
    }
}

/// Draws a frame with a title.
fn frame(screen: &mut Screen<Stdout>, window: Window, title: &str) -> Result<(), Refusal> {
    screen.wbox(window, '|', '-')?;
    screen.wattron(window, Attributes::BOLD)?;
    screen.mvwaddstr(window, 0, 2, title)?;
    screen.wattroff(window, Attributes::BOLD)
}

/// Sets whether what is written next stands out.
fn mark(screen: &mut Screen<Stdout>, window: Window, stands_out: bool) -> Result<(), Refusal> {
    screen.wattrset(
        window,
        if stands_out {
            Attributes::REVERSE
        } else {
            Attributes::NONE
        },
    )
}

fn main() -> Result<(), Error> {
    Installer::new()?.run()
}
