//! A clock by tokio: the time goes on while keys are waited for. `q` ends it.

use curspan::terminal::{Event, Output, Terminal};
use curspan::{Error, Screen, STDSCR};
use std::time::{Duration, Instant};
use tokio::io::unix::AsyncFd;
use tokio::io::Interest;

fn draw(screen: &mut Screen<Output>, since: Instant) -> Result<(), Error> {
    let seconds = since.elapsed().as_secs();
    let text = format!("{:02}:{:02}", seconds / 60, seconds % 60);
    screen.werase(STDSCR)?;
    screen.mvwaddstr(STDSCR, 0, 0, text)?;
    screen.update_panels();
    screen.doupdate()?;
    Ok(())
}

/// The next key, or what else comes. tokio is told that there is none only where the terminal says so.
async fn event(terminal: &AsyncFd<Terminal>) -> std::io::Result<Event> {
    loop {
        let mut ready = terminal.readable().await?;
        match terminal.get_ref().key(Some(Duration::ZERO))? {
            Some(event) => return Ok(event),
            None => ready.clear_ready(),
        }
    }
}

#[tokio::main(flavor = "current_thread")]
async fn main() -> Result<(), Error> {
    let terminal = AsyncFd::with_interest(Terminal::open()?, Interest::READABLE)?;
    let mut screen = terminal.get_ref().screen()?;
    let mut seconds = tokio::time::interval(Duration::from_secs(1));
    let since = Instant::now();
    loop {
        draw(&mut screen, since)?;
        tokio::select! {
            _ = seconds.tick() => {}
            event = event(&terminal) => match event? {
                Event::Key(key) if key == 'q' => return Ok(()),
                Event::Resize => screen = terminal.get_ref().screen_after(screen)?,
                _ => {}
            },
        }
    }
}
