//! A list that scrolls: the arrows, Page Up, Page Down, Home and End choose a line of a file, Enter
//! ends the list and puts that line out, and `q` ends it. It follows the size of the terminal.

use curspan::terminal::{Code, Event, Output, Terminal};
use curspan::{plain, Attributes, Error, Screen, STDSCR};

/// Draws the lines that there is room for from one on, the chosen one in reverse.
fn draw(screen: &mut Screen<Output>, lines: &[&str], at: (usize, usize)) -> Result<(), Error> {
    let (first, chosen) = at;
    let (height, width) = screen.getmaxyx(STDSCR)?;
    let width = width as usize;
    screen.werase(STDSCR)?;
    for (place, y) in (first..lines.len()).zip(0..height) {
        let text = format!("{:width$.width$}", lines[place]);
        screen.wattrset(STDSCR, Attributes::NONE)?;
        if place == chosen {
            screen.wattron(STDSCR, Attributes::REVERSE)?;
        }
        screen.mvwaddstr(STDSCR, y, 0, plain(&text))?;
    }
    screen.wattrset(STDSCR, Attributes::NONE)?;
    screen.update_panels();
    screen.doupdate()?;
    Ok(())
}

/// The place of the line that is chosen.
fn choose(lines: &[&str]) -> Result<Option<usize>, Error> {
    let terminal = Terminal::open()?;
    let mut screen = terminal.screen()?;
    let (mut first, mut chosen) = (0, 0);
    loop {
        let room = screen.getmaxyx(STDSCR)?.0 as usize;
        chosen = chosen.min(lines.len().saturating_sub(1));
        first = first.clamp((chosen + 1).saturating_sub(room), chosen);
        draw(&mut screen, lines, (first, chosen))?;
        let key = match terminal.key(None)? {
            Some(Event::Key(key)) => key,
            Some(Event::Resize) => {
                screen = terminal.screen_after(screen)?;
                continue;
            }
            _ => continue,
        };
        match key.code {
            Code::Up => chosen = chosen.saturating_sub(1),
            Code::Down => chosen += 1,
            Code::PageUp => chosen = chosen.saturating_sub(room),
            Code::PageDown => chosen += room,
            Code::Home => chosen = 0,
            Code::End => chosen = lines.len(),
            Code::Enter => return Ok(Some(chosen)),
            Code::Char('q') => return Ok(None),
            _ => {}
        }
    }
}

fn main() -> Result<(), Error> {
    let name = std::env::args().nth(1);
    let text = std::fs::read_to_string(name.as_deref().unwrap_or("Cargo.toml"))?;
    let lines: Vec<&str> = text.lines().collect();
    if let Some(line) = choose(&lines)?.and_then(|place| lines.get(place)) {
        println!("{line}");
    }
    Ok(())
}
