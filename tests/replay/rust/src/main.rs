//! Makes the calls of a script by the crate, and puts out what `curspan run` does: the bytes, and
//! the log, in which a refusal has its number alone. `tests/trial/replaying.py` writes the script
//! plainly: a line for each call has the number of the script's line, the call's name in C,
//! numbers, and a text in hexadecimal digits. Between them it asks what is told beside the calls.
//! The words are the lines and the columns of the screen.
//!
//! A number stands for the handle that was got with it last, which may be stale; one with which
//! none was got, for one of another screen.

use curspan::{Attributes, Cell, Color, Error, Pad, Panel, Refusal, Screen, Window, STDSCR};
use std::collections::HashMap;
use std::io::{self, BufRead};
use std::{env, error};

mod questions;
mod written_calls;

use written_calls::make;

/// The arguments of a call.
struct Arguments<'a>(Vec<&'a str>);

impl Arguments<'_> {
    fn number(&self, place: usize) -> u32 {
        self.0[place].parse().expect("a number")
    }

    fn signed(&self, place: usize) -> i32 {
        self.0[place].parse().expect("a number")
    }

    fn flag(&self, place: usize) -> bool {
        self.number(place) != 0
    }

    fn character(&self, place: usize) -> char {
        char::from_u32(self.number(place)).expect("a character")
    }

    fn attributes(&self, place: usize) -> Attributes {
        let bits = self.number(place).try_into().ok();
        bits.and_then(Attributes::from_bits).expect("attributes")
    }

    fn color(&self, place: usize) -> Result<Color, Refusal> {
        self.number(place).try_into()
    }

    fn text(&self, place: usize) -> Vec<u8> {
        let digits = self.0.get(place).unwrap_or(&"");
        let byte = |at| u8::from_str_radix(&digits[at..at + 2], 16).expect("two digits");
        (0..digits.len()).step_by(2).map(byte).collect()
    }
}

/// The handles that were got, by their numbers.
struct Known {
    windows: HashMap<u32, Window>,
    panels: HashMap<u32, Panel>,
    no_window: Window,
    no_panel: Panel,
}

impl Known {
    fn new() -> Result<Known, Refusal> {
        let mut other = Screen::new(io::sink(), 1, 1)?;
        let no_window = other.newwin(1, 1, 0, 0)?;
        Ok(Known {
            windows: HashMap::from([(0, STDSCR)]),
            panels: HashMap::new(),
            no_window,
            no_panel: other.new_panel(no_window)?,
        })
    }

    fn window(&self, number: u32) -> Window {
        self.windows.get(&number).copied().unwrap_or(self.no_window)
    }

    fn pad<W>(&self, screen: &Screen<W>, number: u32) -> Result<Pad, Refusal> {
        screen.pad(self.window(number))
    }

    fn panel(&self, number: u32) -> Panel {
        self.panels.get(&number).copied().unwrap_or(self.no_panel)
    }

    fn panel_or_none(&self, number: u32) -> Option<Panel> {
        (number != 0).then(|| self.panel(number))
    }
}

/// What a call answers.
trait Answer {
    /// What the log says of it, if anything. A handle is kept.
    fn text(self, known: &mut Known) -> Option<String>;
}

impl Answer for () {
    fn text(self, _: &mut Known) -> Option<String> {
        None
    }
}

/// A count of bytes or cells.
impl Answer for u32 {
    fn text(self, _: &mut Known) -> Option<String> {
        None
    }
}

impl Answer for Window {
    fn text(self, known: &mut Known) -> Option<String> {
        known.windows.insert(self.number(), self);
        Some(self.number().to_string())
    }
}

impl Answer for Pad {
    fn text(self, known: &mut Known) -> Option<String> {
        Window::from(self).text(known)
    }
}

impl Answer for Panel {
    fn text(self, known: &mut Known) -> Option<String> {
        known.panels.insert(self.number(), self);
        Some(self.number().to_string())
    }
}

impl Answer for Option<Panel> {
    fn text(self, _: &mut Known) -> Option<String> {
        Some(self.map_or("none".to_string(), |panel| panel.number().to_string()))
    }
}

impl Answer for bool {
    fn text(self, _: &mut Known) -> Option<String> {
        Some(self.to_string())
    }
}

impl Answer for (u32, u32) {
    fn text(self, _: &mut Known) -> Option<String> {
        Some(format!("{} {}", self.0, self.1))
    }
}

impl Answer for Cell {
    fn text(self, _: &mut Known) -> Option<String> {
        let (character, bits) = (u32::from(self.character()), self.attributes().bits());
        Some(format!("{character} {bits:02x} {}", self.pair()))
    }
}

fn main() -> Result<(), Box<dyn error::Error>> {
    let sizes: Vec<u32> = env::args()
        .skip(1)
        .map(|word| word.parse())
        .collect::<Result<_, _>>()?;
    let mut screen = Screen::new(io::stdout(), sizes[0], sizes[1])?;
    let mut known = Known::new()?;
    for line in io::stdin().lock().lines() {
        let line = line?;
        let mut words = line.split(' ');
        let (number, call) = (
            words.next().expect("a line's number"),
            words.next().expect("a call"),
        );
        let told = match make(&mut screen, &mut known, call, &Arguments(words.collect())) {
            Err(Error::Refused(refusal)) => Some(format!("E{}", refusal.number())),
            end => end?,
        };
        if let Some(text) = told {
            eprintln!("line {number}: {text}");
        }
    }
    Ok(())
}
