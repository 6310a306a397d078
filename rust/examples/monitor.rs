//! A monitor of the load and the memory of a Linux machine, which looks once a second. `q` ends it.

use curspan::{Attributes, Color, Error, Refusal, Screen, Window, STDSCR};
use std::collections::VecDeque;
use std::fs;
use std::io::Stdout;
use terminal::{Key, Terminal};

mod terminal;

const LOW: u32 = 1;
const HIGH: u32 = 2;

/// The screen, with a window for the memory above one for the load.
struct Monitor {
    screen: Screen<Stdout>,
    memory: Window,
    load: Window,
    loads: VecDeque<f64>,
}

/// A number of a file of /proc that stands behind a name, or first where the name is empty.
fn number_of(file: &str, name: &str) -> f64 {
    let text = fs::read_to_string(file).unwrap_or_default();
    let rest = text
        .lines()
        .find_map(|line| line.strip_prefix(name))
        .unwrap_or_default();
    rest.split_whitespace()
        .next()
        .and_then(|word| word.parse().ok())
        .unwrap_or(0.0)
}

impl Monitor {
    fn new(lines: u32, columns: u32) -> Result<Monitor, Refusal> {
        let mut screen = Screen::new(std::io::stdout(), lines, columns)?;
        screen.init_pair(LOW, Color::Green, Color::Black)?;
        screen.init_pair(HIGH, Color::Red, Color::Black)?;
        screen.wattron(STDSCR, Attributes::BOLD)?;
        screen.waddstr(STDSCR, " A monitor; q ends it")?;
        let memory = screen.newwin(4, 0, 2, 0)?;
        let load = screen.newwin(0, 0, 7, 0)?;
        for window in [memory, load] {
            screen.new_panel(window)?;
        }
        Ok(Monitor {
            screen,
            memory,
            load,
            loads: VecDeque::new(),
        })
    }

    /// Looks at the machine, and shows what it sees.
    fn look(&mut self) -> Result<(), Error> {
        self.show_memory()?;
        self.show_load()?;
        self.screen.update_panels();
        self.screen.doupdate()?;
        Ok(())
    }

    fn show_memory(&mut self) -> Result<(), Refusal> {
        let all = number_of("/proc/meminfo", "MemTotal:");
        let used = all - number_of("/proc/meminfo", "MemAvailable:");
        let part = if all > 0.0 { used / all } else { 0.0 };
        let text = format!(" {:.0} of {:.0} MiB are used", used / 1024.0, all / 1024.0);
        self.screen.mvwaddstr(self.memory, 0, 0, text)?;
        self.screen.wclrtoeol(self.memory)?;
        let (_, columns) = self.screen.getmaxyx(self.memory)?;
        let width = columns.saturating_sub(2) as usize;
        let filled = (part * width as f64) as usize;
        self.screen.wmove(self.memory, 1, 1)?;
        self.screen
            .wcolor_set(self.memory, if part > 0.8 { HIGH } else { LOW })?;
        self.screen.waddstr(self.memory, "#".repeat(filled))?;
        self.screen.wcolor_set(self.memory, 0)?;
        self.screen.waddstr(self.memory, ".".repeat(width - filled))
    }

    /// Draws a column for each load, the newest at the right.
    fn show_load(&mut self) -> Result<(), Refusal> {
        let (lines, columns) = self.screen.getmaxyx(self.load)?;
        let load = number_of("/proc/loadavg", "");
        self.loads.push_front(load);
        self.loads.truncate(columns.saturating_sub(2) as usize);
        let most = self.loads.iter().copied().fold(1.0, f64::max);
        self.screen.werase(self.load)?;
        self.screen
            .waddstr(self.load, format!(" load {load:.2}, highest {most:.2}"))?;
        self.screen.wcolor_set(self.load, LOW)?;
        for (age, load) in self.loads.iter().enumerate() {
            let tall = (load / most * f64::from(lines - 1)).round() as u32;
            for y in lines - tall..lines {
                self.screen
                    .mvwaddstr(self.load, y, columns - 2 - age as u32, "#")?;
            }
        }
        self.screen.wcolor_set(self.load, 0)
    }
}

fn main() -> Result<(), Error> {
    let mut terminal = Terminal::take(Some(10));
    let (lines, columns) = terminal.size();
    let mut monitor = Monitor::new(lines, columns)?;
    monitor.look()?;
    while let Some(key) = terminal.key()? {
        match key {
            Key::Char('q') => break,
            Key::NoneInTime => monitor.look()?,
            _ => {}
        }
    }
    Ok(())
}
