//! Panics over a terminal, by a key: the terminal is given back before the panic is told of.

use curspan::terminal::{Event, Terminal};
use curspan::{Error, STDSCR};

fn main() -> Result<(), Error> {
    let terminal = Terminal::open()?;
    let mut screen = terminal.screen()?;
    screen.waddstr(STDSCR, "q quit: any other key is a panic")?;
    screen.update_panels();
    screen.doupdate()?;
    let event = terminal.key(None)?;
    let is_end = matches!(event, Some(Event::Key(key)) if key == 'q');
    assert!(is_end, "this is told on the page of before");
    Ok(())
}
