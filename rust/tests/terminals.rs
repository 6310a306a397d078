//! Terminals over pseudoterminals: what their keys are, when their descriptor is ready, and what other
//! threads do to them.

use curspan::terminal::{Code, Event, Modifiers, Options, Paste, Terminal};
use curspan::{Color, STDSCR};
use std::fs::File;
use std::io::{Read, Write};
use std::os::raw::{c_int, c_short, c_ulong};
use std::os::unix::io::{AsFd, AsRawFd, FromRawFd, RawFd};
use std::sync::{Mutex, MutexGuard, PoisonError};
use std::time::{Duration, Instant};
use std::{mem, process, ptr, thread};

/// A time that is enough for anything, also in valgrind.
const LONG: Option<Duration> = Some(Duration::from_secs(20));
const ZERO: Option<Duration> = Some(Duration::ZERO);
const READABLE: c_short = 1;
const SET_SIZE: c_ulong = 0x5414;
const WINDOW_CHANGED: c_int = 28;

#[repr(C)]
struct Waited {
    descriptor: c_int,
    wanted: c_short,
    found: c_short,
}

extern "C" {
    fn openpty(m: *mut c_int, s: *mut c_int, n: *mut u8, t: *const u8, w: *const [u16; 4])
        -> c_int;
    fn poll(waited: *mut Waited, count: c_ulong, milliseconds: c_int) -> c_int;
    fn ioctl(descriptor: c_int, what: c_ulong, size: *const [u16; 4]) -> c_int;
    fn tcgetattr(descriptor: c_int, modes: *mut [u64; 16]) -> c_int;
    fn kill(process: c_int, signal: c_int) -> c_int;
}

/// A pseudoterminal: the side of who types, and that of the program.
struct Pseudoterminal {
    typist: File,
    program: File,
}

/// Whether a descriptor is ready to be read in some milliseconds.
fn is_ready(descriptor: RawFd, milliseconds: c_int) -> bool {
    let mut waited = Waited {
        descriptor,
        wanted: READABLE,
        found: 0,
    };
    unsafe { poll(&mut waited, 1, milliseconds) > 0 }
}

impl Pseudoterminal {
    fn new() -> Pseudoterminal {
        let (mut typist, mut program) = (0, 0);
        let (name, modes) = (ptr::null_mut(), ptr::null());
        unsafe {
            assert_eq!(
                openpty(&mut typist, &mut program, name, modes, &[24, 80, 0, 0]),
                0
            );
            Pseudoterminal {
                typist: File::from_raw_fd(typist),
                program: File::from_raw_fd(program),
            }
        }
    }

    fn open(&self, options: Options) -> Terminal {
        let descriptor = self.program.as_raw_fd();
        options.over(descriptor, descriptor).unwrap()
    }

    fn types(&mut self, bytes: &[u8]) {
        self.typist.write_all(bytes).unwrap();
    }

    fn resizes(&self, lines: u16, columns: u16) {
        let size = [lines, columns, 0, 0];
        assert_eq!(
            unsafe { ioctl(self.typist.as_raw_fd(), SET_SIZE, &size) },
            0
        );
    }

    /// What was written since the last look.
    fn shown(&mut self) -> Vec<u8> {
        let mut shown = Vec::new();
        while is_ready(self.typist.as_raw_fd(), 20) {
            let mut bytes = [0; 4096];
            let count = self.typist.read(&mut bytes).unwrap();
            shown.extend(&bytes[..count]);
        }
        shown
    }

    fn modes(&self) -> [u64; 16] {
        let mut modes = [0; 16];
        assert_eq!(
            unsafe { tcgetattr(self.program.as_raw_fd(), &mut modes) },
            0
        );
        modes
    }
}

/// Each test has the process alone: a panic gives all terminals back, and one may own the signals.
fn alone() -> MutexGuard<'static, ()> {
    static ALONE: Mutex<()> = Mutex::new(());
    ALONE.lock().unwrap_or_else(PoisonError::into_inner)
}

/// Options of a terminal that owns no signals.
fn usual() -> Options {
    Options::new().signals(false)
}

fn key(code: Code) -> Option<Event> {
    Some(Event::Key(code.into()))
}

fn contains(bytes: &[u8], text: &[u8]) -> bool {
    bytes.windows(text.len()).any(|it| it == text)
}

#[test]
fn threads_open_and_close_terminals_of_their_own() {
    let _alone = alone();
    let own = || {
        let mut beside = Pseudoterminal::new();
        for _ in 0..300 {
            let terminal = beside.open(usual());
            beside.types(b"q");
            assert_eq!(terminal.key(LONG).unwrap(), key(Code::Char('q')));
            drop(terminal);
            while is_ready(beside.typist.as_raw_fd(), 0) {
                let _ = beside.typist.read(&mut [0; 4096]).unwrap();
            }
        }
    };
    let threads: Vec<_> = (0..4).map(|_| thread::spawn(own)).collect();
    for it in threads {
        it.join().unwrap();
    }
}

#[test]
fn any_duration_is_a_time_to_wait() {
    let _alone = alone();
    let mut beside = Pseudoterminal::new();
    let terminal = beside.open(usual());
    for time in [
        Duration::MAX,
        Duration::from_secs(1 << 40),
        Duration::from_secs(20),
    ] {
        beside.types(b"q");
        assert_eq!(terminal.key(Some(time)).unwrap(), key(Code::Char('q')));
    }
    let begun = Instant::now();
    assert_eq!(
        terminal.key(Some(Duration::from_micros(30_001))).unwrap(),
        None
    );
    assert!(begun.elapsed() >= Duration::from_micros(30_001));
    assert_eq!(terminal.key(Some(Duration::from_nanos(1))).unwrap(), None);
    assert_eq!(terminal.key(ZERO).unwrap(), None);
}

#[test]
fn after_the_panic_of_a_worker_the_terminal_is_taken_again() {
    let _alone = alone();
    let mut beside = Pseudoterminal::new();
    let before = beside.modes();
    let terminal = beside.open(usual());
    let taken = beside.modes();
    assert_ne!(before, taken);
    let mut screen = terminal.screen().unwrap();
    screen.waddstr(STDSCR, "a picture").unwrap();
    screen.update_panels();
    screen.doupdate().unwrap();
    let worker = thread::spawn(|| panic!("in a worker"));
    worker.join().unwrap_err();
    assert_eq!(beside.modes(), before);
    assert!(contains(&beside.shown(), b"\x1b[?1049l"));
    assert!(is_ready(terminal.as_raw_fd(), 10_000));
    assert_eq!(terminal.key(ZERO).unwrap(), Some(Event::Resize));
    assert_eq!(beside.modes(), taken);
    screen = terminal.screen_after(screen).unwrap();
    screen.doupdate().unwrap();
    let shown = beside.shown();
    assert!(contains(&shown, b"\x1b[?1049h") && contains(&shown, b"a picture"));
    assert_eq!(terminal.key(ZERO).unwrap(), None);
    drop((terminal, screen));
    assert_eq!(beside.modes(), before);
}

#[test]
fn the_descriptor_is_ready_where_there_is_something_to_answer() {
    let _alone = alone();
    let mut beside = Pseudoterminal::new();
    let terminal = beside.open(usual());
    let at = terminal.as_fd().as_raw_fd();
    let next = |milliseconds| {
        assert!(is_ready(at, milliseconds));
        terminal.key(ZERO).unwrap()
    };
    // Once in half a second it looks at the size.
    let is_quiet = || !is_ready(at, 0) || (next(0).is_none() && !is_ready(at, 0));
    assert!(is_quiet());

    beside.types(b"ab");
    assert_eq!(next(1000), key(Code::Char('a')));
    assert_eq!(next(0), key(Code::Char('b')));
    assert!(is_quiet());

    beside.types(b"\x1b[200~q\x1b[201~c");
    let text = b"q".to_vec();
    let is_ended = true;
    assert_eq!(next(1000), Some(Event::Paste(Paste { text, is_ended })));
    assert_eq!(next(0), key(Code::Char('c')));

    let begun = Instant::now();
    beside.types(b"\x1b");
    let mut escape = next(1000);
    assert_eq!(escape, None);
    while escape.is_none() {
        escape = next(10_000);
    }
    assert_eq!(escape, key(Code::Escape));
    assert!(begun.elapsed() >= Duration::from_millis(99));

    beside.resizes(10, 30);
    let mut size = next(10_000);
    while size.is_none() {
        size = next(10_000);
    }
    assert_eq!(size, Some(Event::Resize));
    assert_eq!(terminal.size(), (10, 30));
    assert!(is_quiet());
}

#[test]
fn a_thread_that_owns_the_signals_learns_of_a_new_size_at_once() {
    let _alone = alone();
    let beside = Pseudoterminal::new();
    let descriptor = beside.program.as_raw_fd();
    let (begins, begun) = std::sync::mpsc::channel();
    let waits = thread::spawn(move || {
        let terminal = Options::new().over(descriptor, descriptor).unwrap();
        begins.send(()).unwrap();
        terminal.key(LONG).map(|it| (it, Instant::now())).unwrap()
    });
    begun.recv().unwrap();
    thread::sleep(Duration::from_millis(50));
    beside.resizes(10, 30);
    let told = Instant::now();
    unsafe { kill(process::id() as c_int, WINDOW_CHANGED) };
    let (event, came) = waits.join().unwrap();
    assert_eq!(event, Some(Event::Resize));
    assert!(came - told < Duration::from_secs(5));
}

#[test]
fn no_bytes_are_another_event() {
    let _alone = alone();
    let mut beside = Pseudoterminal::new();
    let terminal = beside.open(usual().raw(true));
    for last in 0x80..0x90 {
        beside.types(&[0xf4, 0x90, 0x80, last]);
        for byte in [0xf4, 0x90, 0x80, last] {
            assert_eq!(
                terminal.key(LONG).unwrap(),
                Some(Event::Unknown(vec![byte]))
            );
        }
    }
    beside.types(b"\x1b[1;5D\x1b[9z\x01");
    let keys: Vec<_> = (0..3)
        .map(|_| terminal.key(LONG).unwrap().unwrap())
        .collect();
    assert_eq!(keys[0], Event::Key(Code::Left.with(Modifiers::CTRL)));
    assert_eq!(keys[1], Event::Unknown(b"\x1b[9z".to_vec()));
    assert_eq!(keys[2], Event::Key(Code::Char('a').with(Modifiers::CTRL)));
}

#[test]
fn of_two_screens_in_turn_each_is_shown() {
    let _alone = alone();
    let mut beside = Pseudoterminal::new();
    let terminal = beside.open(usual());
    let mut screens = ["one", "other"].map(|text| {
        let mut screen = terminal.screen().unwrap();
        screen.waddstr(STDSCR, text).unwrap();
        screen.update_panels();
        screen
    });
    for _ in 0..3 {
        for (screen, text) in screens.iter_mut().zip(["one", "other"]) {
            screen.doupdate().unwrap();
            assert!(contains(&beside.shown(), text.as_bytes()));
        }
    }
}

#[test]
fn bytes_that_are_no_screens_are_written_as_they_are() {
    let _alone = alone();
    let mut beside = Pseudoterminal::new();
    let terminal = beside.open(usual());
    let mut screen = terminal.screen().unwrap();
    terminal
        .init_pair(&mut screen, 1, Color::Red, Color::Blue)
        .unwrap();
    screen.doupdate().unwrap();
    for (first, last) in [
        (b'[', b'['),
        (b'[', b'0'),
        (0, 0),
        (b'?', b'?'),
        (0xff, 0xff),
    ] {
        let bytes = [
            27, b'[', b'0', b'0', b'0', b'0', b';', b'3', first, b';', b'4', last, b'm',
        ];
        beside.shown();
        screen.writer_mut().write_all(&bytes).unwrap();
        screen.writer_mut().flush().unwrap();
        assert!(contains(&beside.shown(), &bytes));
    }
}

#[test]
fn a_terminal_that_takes_no_bytes_keeps_them() {
    let _alone = alone();
    let mut beside = Pseudoterminal::new();
    let terminal = beside.open(usual().keep(true));
    let bytes = [b'x'; 100_000];
    terminal.write(&bytes).unwrap();
    let mut kept = terminal.flush(ZERO).unwrap();
    assert!(kept > 0 && terminal.output() >= 0);
    let mut shown = Vec::new();
    while kept > 0 {
        shown.extend(beside.shown());
        kept = terminal.flush(ZERO).unwrap();
    }
    shown.extend(beside.shown());
    assert!(contains(&shown, &bytes));
    mem::drop(terminal);
}
