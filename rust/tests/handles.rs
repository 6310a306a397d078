//! Handles of windows and panels: stale ones and those of other screens are refused, and numbers
//! come back.

use curspan::{Attributes, Panel, Refusal, Screen, Window, STDSCR};

fn screen() -> Screen<Vec<u8>> {
    Screen::new(Vec::new(), 6, 20).unwrap()
}

/// What a few calls answer that name a window: each kind of answer, and a window in each place.
fn ends_of_window(screen: &mut Screen<Vec<u8>>, win: Window) -> Vec<Option<Refusal>> {
    let other = screen.newwin(1, 1, 0, 0).unwrap();
    let ends = vec![
        screen.waddstr(win, "x").err(),
        screen.waddch(win, 'x').err(),
        screen.wattron(win, Attributes::BOLD).err(),
        screen.delwin(win).err(),
        screen.derwin(win, 1, 1, 0, 0).err(),
        screen.getyx(win).err(),
        screen.winch(win).err(),
        screen.is_wintouched(win).err(),
        screen.new_panel(win).err(),
        screen.overlay(win, other).err(),
        screen.overwrite(other, win).err(),
        screen.wnoutrefresh(win).err(),
        screen.row(win, 0).err(),
        screen.window_panel(win).err(),
    ];
    screen.delwin(other).unwrap();
    ends
}

fn ends_of_panel(screen: &mut Screen<Vec<u8>>, panel: Panel) -> Vec<Option<Refusal>> {
    vec![
        screen.top_panel(panel).err(),
        screen.move_panel(panel, 0, 0).err(),
        screen.panel_window(panel).err(),
        screen.panel_hidden(panel).err(),
        screen.panel_above(Some(panel)).err(),
        screen.replace_panel(panel, STDSCR).err(),
        screen.del_panel(panel).err(),
    ]
}

fn all(ends: &[Option<Refusal>], refusal: Refusal) -> bool {
    ends.iter().all(|&end| end == Some(refusal))
}

#[test]
fn a_deleted_window_is_refused() {
    let mut screen = screen();
    let old = screen.newwin(2, 5, 1, 1).unwrap();
    screen.delwin(old).unwrap();
    assert!(all(
        &ends_of_window(&mut screen, old),
        Refusal::NoSuchWindow
    ));
}

#[test]
fn a_deleted_window_is_refused_where_its_number_came_back() {
    let mut screen = screen();
    let old = screen.newwin(2, 5, 1, 1).unwrap();
    screen.delwin(old).unwrap();
    let new = screen.newpad(9, 9).unwrap();
    assert_eq!(new.number(), old.number());
    assert_ne!(Window::from(new), old);
    assert!(all(
        &ends_of_window(&mut screen, old),
        Refusal::NoSuchWindow
    ));
    assert_eq!(screen.getmaxyx(new), Ok((9, 9)));
}

#[test]
fn a_window_of_another_screen_is_refused() {
    let (mut one, mut two) = (screen(), screen());
    let (of_one, of_two) = (
        one.newwin(2, 5, 1, 1).unwrap(),
        two.newwin(2, 5, 1, 1).unwrap(),
    );
    assert_eq!(of_one.number(), of_two.number());
    assert!(all(
        &ends_of_window(&mut one, of_two),
        Refusal::NoSuchWindow
    ));
    assert_eq!(one.getmaxyx(STDSCR), two.getmaxyx(STDSCR));
}

#[test]
fn stale_and_foreign_panels_are_refused() {
    let (mut one, mut two) = (screen(), screen());
    let (first, second) = (
        one.newwin(2, 5, 1, 1).unwrap(),
        two.newwin(2, 5, 1, 1).unwrap(),
    );
    let old = one.new_panel(first).unwrap();
    one.del_panel(old).unwrap();
    assert!(all(&ends_of_panel(&mut one, old), Refusal::NoSuchPanel));
    let new = one.new_panel(first).unwrap();
    assert_eq!(new.number(), old.number());
    assert!(all(&ends_of_panel(&mut one, old), Refusal::NoSuchPanel));
    let foreign = two.new_panel(second).unwrap();
    assert!(all(&ends_of_panel(&mut one, foreign), Refusal::NoSuchPanel));
    assert_eq!(one.panel_window(new), Ok(first));
}

#[test]
fn a_refused_deletion_leaves_the_handle() {
    let mut screen = screen();
    let win = screen.newwin(2, 5, 1, 1).unwrap();
    let panel = screen.new_panel(win).unwrap();
    assert_eq!(screen.delwin(win), Err(Refusal::InPanel));
    assert_eq!(screen.delwin(STDSCR), Err(Refusal::StandardScreen));
    screen.del_panel(panel).unwrap();
    screen.delwin(win).unwrap();
    assert_eq!(screen.getyx(STDSCR), Ok((0, 0)));
}

#[test]
fn answers_are_the_handles_that_were_made() {
    let mut screen = screen();
    let low = screen.newwin(2, 5, 1, 1).unwrap();
    let high = screen.newwin(2, 5, 2, 2).unwrap();
    let (under, over) = (
        screen.new_panel(low).unwrap(),
        screen.new_panel(high).unwrap(),
    );
    assert_eq!(screen.panel_above(None), Ok(Some(under)));
    assert_eq!(screen.panel_above(Some(under)), Ok(Some(over)));
    assert_eq!(screen.panel_above(Some(over)), Ok(None));
    assert_eq!(screen.panel_window(over), Ok(high));
}

#[test]
fn each_window_to_the_last_has_a_handle() {
    let mut screen = screen();
    let made: Vec<Window> = (1..=1000)
        .map(|_| screen.newwin(1, 1, 0, 0).unwrap())
        .collect();
    assert_eq!(screen.newwin(1, 1, 0, 0), Err(Refusal::TooMany));
    assert!(made
        .iter()
        .zip(1..)
        .all(|(win, number)| win.number() == number));
    assert!(made.iter().all(|&win| screen.getyx(win) == Ok((0, 0))));
}
