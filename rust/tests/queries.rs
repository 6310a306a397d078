//! What is asked of a screen: rows, settings, and the windows and panels that there are.

use curspan::{Attributes, Color, Refusal, Screen, ShownCell, STDSCR};

#[test]
fn a_row_has_the_cells_that_were_written() {
    let mut screen = Screen::new(Vec::new(), 3, 8).unwrap();
    screen.wmove(STDSCR, 1, 2).unwrap();
    screen.wattron(STDSCR, Attributes::UNDERLINE).unwrap();
    screen.wcolor_set(STDSCR, 5).unwrap();
    screen.waddstr(STDSCR, "ab").unwrap();
    let row = screen.row(STDSCR, 1).unwrap();
    assert_eq!(
        row.iter().map(|cell| cell.character()).collect::<String>(),
        "  ab    "
    );
    assert_eq!(
        (row[2].attributes(), row[2].pair()),
        (Attributes::UNDERLINE, 5)
    );
    assert_eq!((row[4].attributes(), row[4].pair()), (Attributes::NONE, 0));
    assert_eq!(
        screen.getyx(STDSCR),
        Ok((1, 4)),
        "reading a row moves no cursor"
    );
    assert_eq!(screen.row(STDSCR, 3), Err(Refusal::OutsideWindow));
    assert_eq!(
        screen.cell(STDSCR, 0, 7),
        Ok(screen.row(STDSCR, 0).unwrap()[7])
    );
    assert_eq!(screen.cell(STDSCR, 0, 8), Err(Refusal::OutsideWindow));
}

#[test]
fn a_short_slice_takes_the_first_cells() {
    let mut screen = Screen::new(Vec::new(), 3, 8).unwrap();
    screen.waddstr(STDSCR, "abcdefgh").unwrap();
    let mut cells = [Default::default(); 3];
    assert_eq!(screen.read_row(STDSCR, 0, &mut cells), Ok(8));
    assert_eq!(
        cells
            .iter()
            .map(|cell| cell.character())
            .collect::<String>(),
        "abc"
    );
}

#[test]
fn a_shown_row_is_what_was_taken_into_the_virtual_screen() {
    let mut screen = Screen::new(Vec::new(), 3, 8).unwrap();
    screen.init_pair(3, Color::Yellow, Color::Blue).unwrap();
    let win = screen.newwin(1, 3, 1, 1).unwrap();
    screen.wcolor_set(win, 3).unwrap();
    screen.wattron(win, Attributes::BOLD).unwrap();
    screen.waddstr(win, "hey").unwrap();
    screen.new_panel(win).unwrap();
    assert_eq!(screen.shown_row(1).unwrap(), [ShownCell::default(); 8]);
    screen.update_panels();
    let row = screen.shown_row(1).unwrap();
    assert_eq!(
        row.iter().map(|cell| cell.character()).collect::<String>(),
        " hey    "
    );
    assert_eq!(row[1].foreground(), Some(Color::Yellow));
    assert_eq!(row[1].background(), Some(Color::Blue));
    assert_eq!(row[1].attributes(), Attributes::BOLD);
    assert_eq!(row[0], ShownCell::default());
    assert_eq!(screen.shown_row(3), Err(Refusal::OutsideWindow));
}

#[test]
fn settings_are_as_they_were_set() {
    let mut screen = Screen::new(Vec::new(), 6, 8).unwrap();
    let win = screen.newwin(5, 8, 0, 0).unwrap();
    screen
        .wattrset(win, Attributes::DIM | Attributes::BLINK)
        .unwrap();
    screen.wcolor_set(win, 63).unwrap();
    screen.wbkgdset(win, Attributes::REVERSE, '.').unwrap();
    screen.wsetscrreg(win, 1, 3).unwrap();
    screen.scrollok(win, true).unwrap();
    screen.clearok(win, true).unwrap();
    assert_eq!(
        screen.wattr_get(win),
        Ok((Attributes::DIM | Attributes::BLINK, 63))
    );
    let background = screen.getbkgd(win).unwrap();
    assert_eq!(
        (background.character(), background.attributes()),
        ('.', Attributes::REVERSE)
    );
    assert_eq!(screen.wgetscrreg(win), Ok((1, 3)));
    assert_eq!(screen.is_scrollok(win), Ok(true));
    assert_eq!(screen.is_cleared(win), Ok(true));
    assert_eq!(screen.is_pad(win), Ok(false));
    assert_eq!(screen.wgetparent(win), Err(Refusal::NotDerived));
    assert_eq!(screen.window_panel(win), Ok(None));
}

#[test]
fn windows_and_panels_come_in_the_order_of_their_numbers() {
    let mut screen = Screen::new(Vec::new(), 6, 8).unwrap();
    let one = screen.newwin(1, 1, 0, 0).unwrap();
    let two = screen.newpad(1, 1).unwrap();
    let three = screen.derwin(STDSCR, 1, 1, 0, 0).unwrap();
    let (low, high) = (
        screen.new_panel(three).unwrap(),
        screen.new_panel(one).unwrap(),
    );
    screen.hide_panel(low).unwrap();
    assert_eq!(
        screen.windows().collect::<Vec<_>>(),
        [STDSCR, one, two.into(), three]
    );
    assert_eq!(screen.panels().collect::<Vec<_>>(), [low, high]);
    assert_eq!(screen.wgetparent(three), Ok(STDSCR));
    assert_eq!(screen.window_panel(one), Ok(Some(high)));
    assert_eq!(screen.is_pad(two), Ok(true));
    assert_eq!(screen.pad(two.into()), Ok(two));
    assert_eq!(screen.pad(one), Err(Refusal::NotPad));
}
