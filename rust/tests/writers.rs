//! Writers that fail: what a `doupdate` answers then, and that the next one which succeeds sends
//! all.

use curspan::{Error, Screen, STDSCR};
use std::io::{self, Write};
use std::panic::{self, AssertUnwindSafe};

/// What a writer does when it has no room.
#[derive(Clone, Copy)]
enum Fault {
    Fails,
    TakesNothing,
    Panics,
}

/// A writer with room for some bytes, which takes at most three at once.
struct Faulty {
    taken: Vec<u8>,
    room: usize,
    fault: Fault,
}

impl Write for Faulty {
    fn write(&mut self, bytes: &[u8]) -> io::Result<usize> {
        let length = bytes.len().min(self.room).min(3);
        match self.fault {
            Fault::Fails if length == 0 => return Err(io::ErrorKind::BrokenPipe.into()),
            Fault::Panics if length == 0 => panic!("there is no room"),
            _ => {}
        }
        self.taken.extend(&bytes[..length]);
        self.room -= length;
        Ok(length)
    }

    fn flush(&mut self) -> io::Result<()> {
        Ok(())
    }
}

/// A screen that shows something, over a writer.
fn shown<W: Write>(writer: W) -> Screen<W> {
    let mut screen = Screen::new(writer, 4, 12).unwrap();
    screen.waddstr(STDSCR, "a text").unwrap();
    screen.update_panels();
    screen
}

/// The bytes that show all of it on any terminal.
fn whole() -> Vec<u8> {
    let mut screen = shown(Vec::new());
    let count = screen.doupdate().unwrap();
    assert_eq!(screen.writer().len(), count as usize);
    screen.into_writer()
}

#[test]
fn after_a_failed_write_all_is_sent() {
    for (fault, kind) in [
        (Fault::Fails, io::ErrorKind::BrokenPipe),
        (Fault::TakesNothing, io::ErrorKind::WriteZero),
    ] {
        for room in 0..whole().len() {
            let mut screen = shown(Faulty {
                taken: Vec::new(),
                room,
                fault,
            });
            for _ in 0..2 {
                assert_eq!(screen.doupdate().unwrap_err().kind(), kind);
                assert!(whole().starts_with(&screen.writer().taken));
            }
            screen.writer_mut().room = usize::MAX;
            screen.writer_mut().taken.clear();
            assert_eq!(screen.doupdate().unwrap() as usize, whole().len());
            assert_eq!(screen.writer().taken, whole());
        }
    }
}

#[test]
fn after_a_panic_of_the_writer_all_is_sent() {
    let mut screen = shown(Faulty {
        taken: Vec::new(),
        room: 5,
        fault: Fault::Panics,
    });
    assert!(panic::catch_unwind(AssertUnwindSafe(|| screen.doupdate())).is_err());
    screen.writer_mut().room = usize::MAX;
    screen.writer_mut().taken.clear();
    screen.doupdate().unwrap();
    assert_eq!(screen.writer().taken, whole());
}

#[test]
fn nothing_is_sent_where_nothing_changed() {
    let mut screen = shown(Vec::new());
    screen.doupdate().unwrap();
    screen.update_panels();
    assert_eq!(screen.doupdate().unwrap(), 0);
    screen.invalidate();
    screen.writer_mut().clear();
    screen.doupdate().unwrap();
    assert_eq!(screen.writer(), &whole());
}

#[test]
fn both_kinds_of_errors_become_one() {
    fn greet(writer: Faulty) -> Result<(), Error> {
        let mut screen = shown(writer);
        screen.doupdate()?;
        screen.wmove(STDSCR, 9, 9)?;
        Ok(())
    }
    let writer = |room| Faulty {
        taken: Vec::new(),
        room,
        fault: Fault::Fails,
    };
    assert!(matches!(greet(writer(3)), Err(Error::Write(_))));
    let refused = greet(writer(1000)).unwrap_err();
    assert_eq!(
        refused.to_string(),
        "the window has no such place, line or rectangle"
    );
}
