//! Puts the names of the keys that are typed into a file, a line each, up to Ctrl-D.

use curspan::terminal::{Code, Event, Key, Modifiers, Options};
use std::fs::File;
use std::io::{self, Write};

const END: Key = Code::Char('d').with(Modifiers::CTRL);

fn main() -> io::Result<()> {
    let name = std::env::args().nth(1).unwrap_or_else(|| "keys.txt".into());
    let mut file = File::create(name)?;
    let options = Options::new().raw(true).page(false).cursor(true);
    let terminal = options.open("/dev/tty")?;
    terminal.write(b"ready")?;
    while let Some(event) = terminal.key(None)? {
        match &event {
            Event::Key(key) => writeln!(file, "{key}")?,
            Event::Paste(paste) => {
                writeln!(file, "paste {}", String::from_utf8_lossy(&paste.text))?;
            }
            Event::Unknown(_) => writeln!(file, "unknown")?,
            _ => writeln!(file, "resize")?,
        }
        if event == Event::Key(END) {
            break;
        }
    }
    Ok(())
}
