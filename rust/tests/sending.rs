//! A screen goes to another thread, and its handles with it.

use curspan::{Cell, Error, Panel, Refusal, Screen, Window, STDSCR};
use std::thread;

fn is_sent<T: Send>() {}

fn is_shared<T: Send + Sync + Copy>() {}

#[test]
fn screens_are_sent_and_handles_shared() {
    is_sent::<Screen<Vec<u8>>>();
    is_sent::<Error>();
    is_shared::<Window>();
    is_shared::<Panel>();
    is_shared::<Cell>();
    is_shared::<Refusal>();
}

#[test]
fn screens_of_many_threads_are_their_own() {
    let draw = |number: u32| {
        let mut screen = Screen::new(Vec::new(), 10, 40).unwrap();
        for round in 0..200 {
            let win = screen.newwin(3, 20, round % 7, round % 20).unwrap();
            screen.waddstr(win, number.to_string()).unwrap();
            let panel = screen.new_panel(win).unwrap();
            screen.update_panels();
            screen.doupdate().unwrap();
            screen.del_panel(panel).unwrap();
            screen.delwin(win).unwrap();
        }
        screen
    };
    let alone = draw(7).into_writer();
    let threads: Vec<_> = (0..4).map(|_| thread::spawn(move || draw(7))).collect();
    for thread in threads {
        let screen = thread.join().unwrap();
        assert_eq!(screen.getmaxyx(STDSCR), Ok((10, 40)));
        assert!(screen.into_writer() == alone);
    }
}
