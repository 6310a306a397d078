//! The terminal of a program: its keys, its size, and its modes, which `stty` sets.

use std::collections::VecDeque;
use std::io::{self, Read, Write};
use std::process::{Command, Stdio};
use std::{env, mem};

/// A key, or a letter with the Control key.
#[derive(Clone, Copy, PartialEq, Eq, Debug)]
pub enum Key {
    Char(char),
    Control(char),
    Enter,
    Tab,
    Backspace,
    Escape,
    Up,
    Down,
    Right,
    Left,
    /// No key came in the time that it was waited for.
    NoneInTime,
}

/// A terminal that is in raw mode and shows its second page, up to its end, which gives it back as
/// it was. Where the standard input is no terminal, nothing is set.
pub struct Terminal {
    settings: Option<String>,
    waits: bool,
    typed: VecDeque<Key>,
}

/// Runs `stty` on the standard input, and answers what it puts out.
fn stty(words: &[&str]) -> Option<String> {
    let output = Command::new("stty")
        .args(words)
        .stdin(Stdio::inherit())
        .stderr(Stdio::null())
        .output();
    let output = output.ok().filter(|output| output.status.success())?;
    String::from_utf8(output.stdout).ok()
}

/// Writes to the terminal and flushes.
fn send(text: &str) {
    let mut out = io::stdout();
    // A terminal that is gone needs nothing.
    let _ = out.write_all(text.as_bytes()).and_then(|()| out.flush());
}

impl Terminal {
    /// Takes the terminal. Its keys are waited for, or only for so many tenths of a second.
    pub fn take(tenths: Option<u8>) -> Terminal {
        let settings = stty(&["-g"]);
        if settings.is_some() {
            let tenths = tenths.unwrap_or(0).to_string();
            let min = if tenths == "0" { "1" } else { "0" };
            stty(&["raw", "-echo", "min", min, "time", &tenths]);
            send("\x1b[?1049h");
        }
        let waits = settings.is_none() || tenths.is_none();
        Terminal {
            settings,
            waits,
            typed: VecDeque::new(),
        }
    }

    /// Its lines and columns: those of the terminal, or of the variables `LINES` and `COLUMNS`, or
    /// 24 and 80.
    pub fn size(&self) -> (u32, u32) {
        let variable = |name| env::var(name).unwrap_or_default();
        let size =
            stty(&["size"]).unwrap_or_else(|| variable("LINES") + " " + &variable("COLUMNS"));
        let mut numbers = size.split_whitespace().map(str::parse);
        match (numbers.next(), numbers.next()) {
            (Some(Ok(lines)), Some(Ok(columns))) => (lines, columns),
            _ => (24, 80),
        }
    }

    /// The next key, or nothing where none comes any more.
    pub fn key(&mut self) -> io::Result<Option<Key>> {
        while self.typed.is_empty() {
            let mut bytes = [0; 256];
            let count = io::stdin().read(&mut bytes)?;
            if count == 0 {
                return Ok(if self.waits {
                    None
                } else {
                    Some(Key::NoneInTime)
                });
            }
            self.typed.extend(keys_of(&bytes[..count]));
        }
        Ok(self.typed.pop_front())
    }
}

impl Drop for Terminal {
    fn drop(&mut self) {
        if let Some(settings) = mem::take(&mut self.settings) {
            send("\x1b[m\x1b[?1049l");
            stty(&[settings.trim_end()]);
        }
    }
}

/// The keys of what was typed, but for those that are none of these.
fn keys_of(mut bytes: &[u8]) -> Vec<Key> {
    let mut keys = Vec::new();
    while let Some(&first) = bytes.first() {
        let (key, length) = match *bytes {
            [0x1b, b'[' | b'O', letter, ..] => (arrow(letter), 3),
            _ => (plain_key(first), 1),
        };
        keys.extend(key);
        bytes = &bytes[length..];
    }
    keys
}

fn plain_key(byte: u8) -> Option<Key> {
    match byte {
        0x1b => Some(Key::Escape),
        b'\r' | b'\n' => Some(Key::Enter),
        b'\t' => Some(Key::Tab),
        0x7f | 0x08 => Some(Key::Backspace),
        0x01..=0x1a => Some(Key::Control(char::from(byte + b'A' - 1))),
        b' '..=b'~' => Some(Key::Char(char::from(byte))),
        _ => None,
    }
}

fn arrow(letter: u8) -> Option<Key> {
    match letter {
        b'A' => Some(Key::Up),
        b'B' => Some(Key::Down),
        b'C' => Some(Key::Right),
        b'D' => Some(Key::Left),
        _ => None,
    }
}
