//! A monitor of the processes of a Linux machine: `p`, `n` and `m` sort by number, name and memory;
//! arrows choose one, `k` asks before it would end it, and `q` ends the monitor. It looks again
//! each second, follows the size of the terminal, and ends no process: it says which one it would.

use curspan::terminal::{Code, Event, Modifiers, Output, Terminal};
use curspan::{plain, Attributes, Color, Error, Refusal, Screen, STDSCR};
use std::{cmp, fs, time::Duration};

const TITLE: u32 = 1;
const CHOSEN: u32 = 2;

/// The number, the name and the memory in KiB of a process.
type Process = (u32, String, u64);

/// The process of a folder of /proc, if that is one, and there still.
fn process(number: &str) -> Option<Process> {
    let read = |file| fs::read_to_string(format!("/proc/{number}/{file}")).ok();
    let pages: u64 = read("statm")?.split(' ').nth(1)?.parse().ok()?;
    let name = read("comm")?.trim_end().into();
    Some((number.parse().ok()?, name, pages * 4))
}

fn look(order: char) -> Vec<Process> {
    let folders = fs::read_dir("/proc").into_iter().flatten().flatten();
    let names = folders.filter_map(|folder| folder.file_name().into_string().ok());
    let mut found: Vec<Process> = names.filter_map(|name| process(&name)).collect();
    match order {
        'p' => found.sort_by_key(|it| it.0),
        'n' => found.sort_by(|one, other| one.1.cmp(&other.1)),
        _ => found.sort_by_key(|it| cmp::Reverse(it.2)),
    }
    found
}

/// Writes a text in a pair of colours across a line of the screen.
fn put(screen: &mut Screen<Output>, y: u32, pair: u32, text: &str) -> Result<(), Error> {
    let width = screen.getmaxyx(STDSCR)?.1 as usize;
    screen.wcolor_set(STDSCR, pair)?;
    screen.mvwaddstr(STDSCR, y, 0, plain(&format!("{text:width$.width$}")))?;
    Ok(())
}

fn draw(screen: &mut Screen<Output>, found: &[Process], at: (usize, usize)) -> Result<(), Error> {
    put(screen, 0, TITLE, "   NUMBER  NAME                   KIB")?;
    for y in 1..screen.getmaxyx(STDSCR)?.0 - 1 {
        let place = at.0 + y as usize - 1;
        let pair = if place == at.1 { CHOSEN } else { 0 };
        let it = found.get(place);
        let text = it.map(|it| format!("{:9}  {:15.15}  {:9}", it.0, it.1, it.2));
        put(screen, y, pair, &text.unwrap_or_default())?;
    }
    Ok(())
}

/// Draws the question whether a process shall be ended over the list.
fn ask(screen: &mut Screen<Output>, it: &Process) -> Result<(), Refusal> {
    let (lines, columns) = screen.getmaxyx(STDSCR)?;
    let (height, width) = (cmp::min(lines, 3), cmp::min(columns, 40));
    let window = screen.newwin(height, width, (lines - height) / 2, (columns - width) / 2)?;
    screen.wbkgdset(window, Attributes::REVERSE, ' ')?;
    screen.werase(window)?;
    let text = format!(" y or n: end {}, {:.15}?", it.0, it.1);
    let text: String = text.chars().take(width as usize).collect();
    screen.mvwaddstr(window, height / 2, 0, plain(&text))?;
    let panel = screen.new_panel(window)?;
    screen.update_panels();
    // The virtual screen has the question now, and the next doupdate shows that.
    screen.del_panel(panel)?;
    screen.delwin(window)
}

fn main() -> Result<(), Error> {
    let terminal = Terminal::open()?;
    let mut screen = terminal.screen()?;
    let (mut order, mut first, mut chosen, mut ended, mut asked) = ('m', 0, 0, 0, None);
    terminal.init_pair(&mut screen, TITLE, Color::White, Color::Blue)?;
    terminal.init_pair(&mut screen, CHOSEN, Color::Red, Color::Default)?;
    loop {
        let found = look(order);
        let lines = screen.getmaxyx(STDSCR)?.0;
        chosen = cmp::min(chosen, found.len() - 1);
        let least = (chosen + 3).saturating_sub(lines as usize);
        first = first.clamp(least.min(chosen), chosen);
        draw(&mut screen, &found, (first, chosen))?;
        let keys = format!(" p number  n name  m memory  k end ({ended})  q quit");
        put(&mut screen, lines - 1, TITLE, &keys)?;
        screen.update_panels();
        if let Some(it) = &asked {
            ask(&mut screen, it)?;
        }
        screen.doupdate()?;
        match (terminal.key(Some(Duration::from_secs(1)))?, &asked) {
            (None | Some(Event::Resize), _) => screen = terminal.screen_after(screen)?,
            (Some(Event::Key(key)), Some(it)) if key == 'y' => (ended, asked) = (it.0, None),
            (_, Some(_)) => asked = None,
            (Some(Event::Key(key)), _) if key.modifiers == Modifiers::NONE => match key.code {
                Code::Char('q') => return Ok(()),
                Code::Up => chosen = chosen.saturating_sub(1),
                Code::Down => chosen += 1,
                Code::Char('k') => asked = Some(found[chosen].clone()),
                Code::Char(name @ ('p' | 'n' | 'm')) => order = name,
                _ => {}
            },
            _ => {}
        }
    }
}
