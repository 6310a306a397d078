//! What is asked of a screen beside the calls, each question by its name in C.

use crate::{Answer, Arguments, Known};
use curspan::{Cell, Color, Error, Panel, Refusal, Screen, ShownCell, Window};
use std::io::Stdout;

/// The number of the terminal's own colours.
const OWN: u32 = 9;

/// The cells of a line as they are told, after how many columns it has.
fn line<C: Copy + Default>(
    room: u32,
    read: impl Fn(&mut [C]) -> Result<usize, Refusal>,
    told: impl Fn(C) -> String,
) -> Result<String, Refusal> {
    let mut cells = vec![C::default(); room as usize];
    let columns = read(&mut cells)?;
    let cells = cells.into_iter().take(columns).map(told);
    let words: Vec<String> = std::iter::once(columns.to_string()).chain(cells).collect();
    Ok(words.join(" "))
}

fn cell(cell: Cell) -> String {
    let (character, bits) = (u32::from(cell.character()), cell.attributes().bits());
    format!("{character:02x}{bits:02x}{:02x}", cell.pair())
}

fn shown_cell(cell: ShownCell) -> String {
    let number = |color: Option<Color>| color.map_or(OWN, u32::from);
    let (character, bits) = (u32::from(cell.character()), cell.attributes().bits());
    let (foreground, background) = (number(cell.foreground()), number(cell.background()));
    format!("{character:02x}{bits:02x}{foreground}{background}")
}

/// The first number that is greater than one, or 0.
fn next(mut numbers: impl Iterator<Item = u32>, n: u32) -> String {
    numbers.find(|&it| it > n).unwrap_or(0).to_string()
}

/// Asks a question, and answers what the log says of its answer.
pub(crate) fn ask(
    screen: &Screen<Stdout>,
    known: &mut Known,
    question: &str,
    a: &Arguments,
) -> Result<Option<String>, Error> {
    let win = || known.window(a.number(0));
    Ok(match question {
        "row" => {
            let win = win();
            Some(line(
                a.number(2),
                |cells| screen.read_row(win, a.number(1), cells),
                cell,
            )?)
        }
        "shown_row" => Some(line(
            a.number(1),
            |cells| screen.read_shown_row(a.number(0), cells),
            shown_cell,
        )?),
        "cell" => screen.cell(win(), a.number(1), a.number(2))?.text(known),
        "wattr_get" => {
            let (attributes, pair) = screen.wattr_get(win())?;
            (u32::from(attributes.bits()), pair).text(known)
        }
        "getbkgd" => screen.getbkgd(win())?.text(known),
        "wgetscrreg" => screen.wgetscrreg(win())?.text(known),
        "is_scrollok" => screen.is_scrollok(win())?.text(known),
        "is_cleared" => screen.is_cleared(win())?.text(known),
        "is_pad" => screen.is_pad(win())?.text(known),
        "wgetparent" => Some(screen.wgetparent(win())?.number().to_string()),
        "window_panel" => {
            let panel = screen.window_panel(win())?;
            Some(panel.map_or(0, Panel::number).to_string())
        }
        "next_window" => Some(next(screen.windows().map(Window::number), a.number(0))),
        "next_panel" => Some(next(screen.panels().map(Panel::number), a.number(0))),
        _ => panic!("there is no call or question {question}"),
    })
}
