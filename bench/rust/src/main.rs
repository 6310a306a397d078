//! The calls of `calls.c`, by the crate: `MEASURE TIMES` makes a measure so often, for callgrind to
//! count.

use curspan::{Error, Panel, Refusal, Screen, Window, STDSCR};
use std::env;
use std::fs::{File, OpenOptions};

const PANELS: usize = 5;

struct Desk {
    screen: Screen<File>,
    windows: [Window; PANELS],
    panels: [Panel; PANELS],
}

impl Desk {
    fn new() -> Result<Desk, Error> {
        let writer = OpenOptions::new().write(true).open("/dev/null")?;
        let mut screen = Screen::new(writer, 24, 80)?;
        let mut windows = [STDSCR; PANELS];
        for (i, window) in (0..).zip(&mut windows) {
            *window = screen.newwin(12, 40, i * 2, i * 8)?;
        }
        let mut panels = [screen.new_panel(windows[0])?; PANELS];
        for (panel, window) in panels.iter_mut().zip(windows).skip(1) {
            *panel = screen.new_panel(window)?;
        }
        Ok(Desk {
            screen,
            windows,
            panels,
        })
    }

    #[inline(never)]
    fn moves(&mut self, times: u32) -> Result<(), Refusal> {
        (0..times).try_for_each(|i| self.screen.wmove(STDSCR, i % 24, i % 80))
    }

    #[inline(never)]
    fn characters(&mut self, times: u32) -> Result<(), Refusal> {
        for i in 0..times {
            if i % 1800 == 0 {
                self.screen.wmove(STDSCR, 0, 0)?;
            }
            self.screen
                .waddch(STDSCR, char::from(b'a' + (i % 26) as u8))?;
        }
        Ok(())
    }

    #[inline(never)]
    fn words(&mut self, times: u32) -> Result<(), Refusal> {
        for (i, &window) in (0..times).zip(self.windows.iter().cycle()) {
            self.screen.mvwaddstr(window, i % 12, i % 30, "word")?;
        }
        Ok(())
    }

    #[inline(never)]
    fn texts(&mut self, times: u32) -> Result<(), Refusal> {
        (0..times).try_for_each(|i| {
            self.screen
                .mvwaddstr(STDSCR, i % 24, i % 40, "a text of 26 characters ab")
        })
    }

    #[inline(never)]
    fn questions(&mut self, times: u32) -> Result<(), Refusal> {
        let mut sum = 0;
        for &window in self.windows.iter().cycle().take(times as usize) {
            let (y, x) = self.screen.getyx(window)?;
            sum += y + x;
        }
        assert_ne!(sum, 1);
        Ok(())
    }

    fn show(&mut self) -> Result<(), Error> {
        self.screen.update_panels();
        self.screen.doupdate()?;
        Ok(())
    }

    #[inline(never)]
    fn frames(&mut self, times: u32) -> Result<(), Error> {
        for i in 0..times {
            let place = i as usize;
            self.screen
                .mvwaddstr(self.windows[place % PANELS], 3, 3, i.to_string())?;
            self.screen
                .move_panel(self.panels[place % PANELS], i * 7 % 12, i * 11 % 40)?;
            self.screen.top_panel(self.panels[(place + 2) % PANELS])?;
            self.show()?;
        }
        Ok(())
    }
}

fn main() -> Result<(), Error> {
    let words: Vec<String> = env::args().collect();
    let times = words[2].parse().expect("a number of times");
    let mut desk = Desk::new()?;
    desk.show()?;
    match words[1].as_str() {
        "moves" => desk.moves(times)?,
        "characters" => desk.characters(times)?,
        "words" => desk.words(times)?,
        "texts" => desk.texts(times)?,
        "questions" => desk.questions(times)?,
        "frames" => desk.frames(times)?,
        measure => panic!("there is no measure {measure}"),
    }
    Ok(())
}
