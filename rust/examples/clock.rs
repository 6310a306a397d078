//! A clock. It waits by the terminal's descriptor alone, for keys, a new size and all else, and shows
//! the time of UTC once a second and at a new size. `q` ends it.

use curspan::terminal::{Event, Output, Terminal};
use curspan::{Error, Screen, STDSCR};
use std::os::raw::{c_int, c_short, c_ulong};
use std::os::unix::io::{AsFd, AsRawFd};
use std::time::{Duration, SystemTime, UNIX_EPOCH};

/// C's `pollfd`. The standard library of Rust has no `poll`; crates as `rustix` have one that is safe.
#[repr(C)]
struct Waited {
    descriptor: c_int,
    wanted: c_short,
    found: c_short,
}

extern "C" {
    fn poll(waited: *mut Waited, count: c_ulong, milliseconds: c_int) -> c_int;
}

/// Waits until a descriptor is ready to be read, for some time at most.
fn wait(on: &impl AsFd, time: Duration) {
    let mut waited = Waited {
        descriptor: on.as_fd().as_raw_fd(),
        wanted: 1,
        found: 0,
    };
    // SAFETY: there is one, which is lent.
    unsafe { poll(&mut waited, 1, time.as_millis() as c_int + 1) };
}

fn now() -> Duration {
    SystemTime::now()
        .duration_since(UNIX_EPOCH)
        .unwrap_or_default()
}

fn draw(screen: &mut Screen<Output>) -> Result<(), Error> {
    let (lines, columns) = screen.getmaxyx(STDSCR)?;
    let day = now().as_secs() % 86_400;
    let text = format!("{:02}:{:02}:{:02}", day / 3600, day / 60 % 60, day % 60);
    screen.werase(STDSCR)?;
    screen.mvwaddstr(STDSCR, lines / 2, columns.saturating_sub(8) / 2, text)?;
    screen.update_panels();
    screen.doupdate()?;
    Ok(())
}

fn main() -> Result<(), Error> {
    let terminal = Terminal::open()?;
    let mut screen = terminal.screen()?;
    loop {
        draw(&mut screen)?;
        wait(
            &terminal,
            Duration::from_nanos(1_000_000_000 - u64::from(now().subsec_nanos())),
        );
        match terminal.key(Some(Duration::ZERO))? {
            Some(Event::Key(key)) if key == 'q' => return Ok(()),
            Some(Event::Resize) => screen = terminal.screen_after(screen)?,
            _ => {}
        }
    }
}
