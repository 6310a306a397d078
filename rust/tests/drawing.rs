//! Cells that are given, and lines and boxes.

use curspan::{Attributes, Cell, Refusal, Screen, Window, STDSCR};

fn screen() -> Screen<Vec<u8>> {
    Screen::new(Vec::new(), 4, 6).unwrap()
}

fn cell(ch: char) -> Cell {
    Cell::new(ch, Attributes::BOLD, 1).unwrap()
}

fn text(screen: &Screen<Vec<u8>>, win: Window) -> Vec<String> {
    let (lines, _) = screen.getmaxyx(win).unwrap();
    let line = |y| {
        screen
            .row(win, y)
            .unwrap()
            .iter()
            .map(|cell| cell.character())
            .collect()
    };
    (0..lines).map(line).collect()
}

#[test]
fn a_rectangle_is_filled_and_the_cursor_stays() {
    let mut screen = screen();
    screen.wbkgdset(STDSCR, Attributes::DIM, '.').unwrap();
    screen.wmove(STDSCR, 3, 5).unwrap();
    screen.fill(STDSCR, 1, 2, 2, 4, cell('#')).unwrap();
    assert_eq!(
        text(&screen, STDSCR),
        ["      ", "  ### ", "  ### ", "      "]
    );
    assert_eq!(screen.row(STDSCR, 2).unwrap()[4], cell('#'));
    assert_eq!(screen.getyx(STDSCR), Ok((3, 5)));
}

#[test]
fn cells_are_put_into_a_line() {
    let mut screen = screen();
    let pad = screen.newpad(2, 4).unwrap();
    screen
        .put(pad, 1, 1, &[cell('a'), cell(' '), cell('~')])
        .unwrap();
    screen.put(pad, 0, 4, &[]).unwrap();
    assert_eq!(text(&screen, pad.into()), ["    ", " a ~"]);
    let row = screen.row(pad, 1).unwrap();
    screen.put(pad, 0, 0, &row).unwrap();
    assert_eq!(text(&screen, pad.into()), [" a ~", " a ~"]);
}

#[test]
fn refusals_come_in_their_order() {
    let mut screen = screen();
    let gone = screen.newwin(1, 1, 0, 0).unwrap();
    screen.delwin(gone).unwrap();
    assert_eq!(
        screen.fill(gone, 1, 0, 0, 0, cell('x')),
        Err(Refusal::NoSuchWindow)
    );
    assert_eq!(
        screen.fill(STDSCR, 1, 0, 0, 9, cell('x')),
        Err(Refusal::BadRectangle)
    );
    assert_eq!(
        screen.fill(STDSCR, 0, 0, 4, 0, cell('x')),
        Err(Refusal::OutsideWindow)
    );
    assert_eq!(screen.put(gone, 9, 0, &[]), Err(Refusal::NoSuchWindow));
    assert_eq!(screen.put(STDSCR, 4, 0, &[]), Err(Refusal::OutsideWindow));
    assert_eq!(
        screen.put(STDSCR, 0, 5, &[cell('x'); 2]),
        Err(Refusal::OutsideWindow)
    );
    assert_eq!(screen.whline(gone, '-', 1), Err(Refusal::NoSuchWindow));
    assert_eq!(
        screen.mvwvline(STDSCR, 4, 0, '|', 1),
        Err(Refusal::OutsideWindow)
    );
    assert_eq!(screen.whline(STDSCR, '\n', 1), Err(Refusal::BadCharacter));
    assert_eq!(screen.wbox(gone, '|', '-'), Err(Refusal::NoSuchWindow));
    assert_eq!(screen.wbox(STDSCR, '|', 'é'), Err(Refusal::BadCharacter));
    assert_eq!(text(&screen, STDSCR), ["      "; 4]);
}

#[test]
fn a_cell_is_one_that_a_window_can_have() {
    let it = Cell::new('~', Attributes::ALL, 63).unwrap();
    assert_eq!(
        (it.character(), it.attributes(), it.pair()),
        ('~', Attributes::ALL, 63)
    );
    assert_eq!(Cell::new(' ', Attributes::NONE, 0), Ok(Cell::default()));
    for ch in ['\x1f', '\x7f', '\u{141}'] {
        assert_eq!(
            Cell::new(ch, Attributes::NONE, 64),
            Err(Refusal::BadCharacter)
        );
    }
    assert_eq!(Cell::new('x', Attributes::NONE, 64), Err(Refusal::BadPair));
}

#[test]
fn lines_end_where_the_window_does() {
    let mut screen = screen();
    screen.wattron(STDSCR, Attributes::BOLD).unwrap();
    screen.wcolor_set(STDSCR, 1).unwrap();
    screen.mvwhline(STDSCR, 1, 4, '-', 9).unwrap();
    screen.mvwvline(STDSCR, 2, 1, '|', u32::MAX).unwrap();
    screen.mvwhline(STDSCR, 0, 0, '=', 2).unwrap();
    screen.wvline(STDSCR, '=', 0).unwrap();
    assert_eq!(
        text(&screen, STDSCR),
        ["==    ", "    --", " |    ", " |    "]
    );
    assert_eq!(screen.row(STDSCR, 1).unwrap()[5], cell('-'));
    assert_eq!(screen.getyx(STDSCR), Ok((0, 0)));
}

#[test]
fn a_box_has_the_attributes_of_its_window_and_background() {
    let mut screen = screen();
    let win = screen.newwin(3, 5, 0, 0).unwrap();
    screen.wattron(win, Attributes::BOLD).unwrap();
    screen.wbkgdset(win, Attributes::DIM, '.').unwrap();
    screen.wbkgdpair(win, 7).unwrap();
    screen
        .wborder(win, ['1', '2', '3', '4', '5', '6', '7', ' '])
        .unwrap();
    assert_eq!(text(&screen, win), ["53336", "1   2", "7444."]);
    let both = Attributes::BOLD | Attributes::DIM;
    assert_eq!(Ok(screen.row(win, 2).unwrap()[4]), Cell::new('.', both, 7));
    screen.wbox(win, '!', '=').unwrap();
    assert_eq!(text(&screen, win), ["+===+", "!   !", "+===+"]);
}
