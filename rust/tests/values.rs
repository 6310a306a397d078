//! Attributes, colours, cells and refusals by themselves, and numbers that are too great.

use curspan::terminal::{Code, Key, Modifiers};
use curspan::{Attributes, Cell, Color, Refusal, Screen, STDSCR};
use std::collections::HashSet;
use std::error::Error;

#[test]
fn attributes_are_sets() {
    let mut set = Attributes::BOLD | Attributes::UNDERLINE;
    assert!(set.contains(Attributes::BOLD) && set.contains(Attributes::NONE));
    assert!(!set.contains(Attributes::BOLD | Attributes::BLINK));
    assert_eq!(set.bits(), 0x05);
    set |= Attributes::INVIS;
    assert_eq!(format!("{set:?}"), "BOLD | UNDERLINE | INVIS");
    assert_eq!(Attributes::from_bits(0x25), Some(set));
    assert_eq!(Attributes::from_bits(0x40), None);
    assert_eq!(Attributes::default(), Attributes::NONE);
    assert_eq!(format!("{:?}", Attributes::NONE), "NONE");
}

#[test]
fn colours_have_numbers() {
    assert_eq!(u32::from(Color::Cyan), 6);
    assert_eq!(Color::try_from(7), Ok(Color::White));
    assert_eq!(Color::try_from(8), Err(Refusal::BadPair));
    assert_eq!(Color::try_from(u32::MAX), Err(Refusal::BadPair));
}

#[test]
fn a_cell_is_blank_at_first() {
    let cell = Cell::default();
    let parts = (cell.character(), cell.attributes(), cell.pair());
    assert_eq!(parts, (' ', Attributes::NONE, 0));
    let text = "Cell { character: ' ', attributes: NONE, pair: 0 }";
    assert_eq!(format!("{cell:?}"), text);
}

#[test]
fn refusals_are_errors() {
    let refusal: Box<dyn Error> = Refusal::TooMany.into();
    assert!(refusal.to_string().starts_with("there are 1000 windows"));
    assert_eq!(Refusal::NoSuchWindow.number(), 1);
    assert_eq!(Refusal::BadPair.number(), 20);
    assert_eq!(Refusal::BadPair.to_string(), Refusal::BadPair.text());
}

#[test]
fn great_numbers_are_refused_and_not_cut() {
    const CUT_TO_ONE: u32 = 0x1_0001;
    let mut screen = Screen::new(Vec::new(), 4, 10).unwrap();
    let refused = Err(Refusal::OutsideWindow);
    assert_eq!(screen.wmove(STDSCR, CUT_TO_ONE, 1), refused);
    assert_eq!(screen.wmove(STDSCR, 1, CUT_TO_ONE), refused);
    assert_eq!(screen.touchline(STDSCR, 1, CUT_TO_ONE), refused);
    assert_eq!(screen.newwin(CUT_TO_ONE, 1, 1, 1), Err(Refusal::OffScreen));
    assert_eq!(screen.newpad(1, CUT_TO_ONE), Err(Refusal::BadSize));
    assert_eq!(screen.wcolor_set(STDSCR, CUT_TO_ONE), Err(Refusal::BadPair));
    assert_eq!(screen.waddch(STDSCR, '\u{141}'), Err(Refusal::BadCharacter));
    assert_eq!(
        Screen::new(Vec::new(), CUT_TO_ONE, 10).err(),
        Some(Refusal::BadSize)
    );
    assert_eq!(screen.getyx(STDSCR), Ok((0, 0)));
}

#[test]
fn what_moves_first_is_as_the_move_and_the_call() {
    let mut screen = Screen::new(Vec::new(), 2, 10).unwrap();
    let pad = screen.newpad(2, 10).unwrap();
    screen.mvwaddstr(pad, 1, 0, "abc").unwrap();
    screen.mvwaddch(pad, 1, 1, 'B').unwrap();
    screen.mvwinsch(pad, 1, 0, '>').unwrap();
    screen.mvwdelch(pad, 1, 3).unwrap();
    let row = screen.row(pad, 1).unwrap();
    let text: String = row.iter().map(|cell| cell.character()).collect();
    assert_eq!(text, ">aB       ");
    assert_eq!(screen.mvwinch(pad, 1, 2).unwrap().character(), 'B');
    assert_eq!(screen.mvwinch(pad, 2, 0), Err(Refusal::OutsideWindow));
}

#[test]
fn keys_have_names() {
    const LEFT: Key = Code::Left.with(Modifiers::CTRL);
    for (key, name) in [
        (LEFT, "ctrl+left"),
        (Code::Char('é').into(), "é"),
        (Code::Char(' ').into(), " "),
        (Code::Char('+').with(Modifiers::CTRL), "ctrl++"),
        (Code::Char('f').with(Modifiers::ALT), "alt+f"),
        (Code::Enter.into(), "enter"),
        (Code::C3.with(Modifiers::ALL), "ctrl+alt+shift+c3"),
        (Code::F(12).with(Modifiers::SHIFT), "shift+f12"),
    ] {
        assert_eq!(key.to_string(), name);
        assert_eq!(name.parse(), Ok(key));
    }
    for name in [
        "",
        "ctrl+",
        "alt+ctrl+a",
        "f01",
        "f+1",
        "f256",
        "resize",
        "ab",
        "Up",
        "\t",
    ] {
        assert!(name.parse::<Key>().is_err());
    }
    assert_eq!(format!("{LEFT:>10}|"), " ctrl+left|");
    assert!(LEFT != Code::Left && Key::from(Code::Char('q')) == 'q');
    assert_eq!(HashSet::from([LEFT, LEFT, Code::Left.into()]).len(), 2);
    assert!(matches!("ctrl+left".parse(), Ok(LEFT)));
}
