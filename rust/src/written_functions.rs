//! The functions of calls in `curspan.h`. Written by tools/calls from calls.table.
#![forbid(unsafe_code)]

/// Hands these functions, and others after them, to a macro.
macro_rules! with_calls {
    ($macro:ident! { $($others:tt)* }) => {
        $macro! {
            fn curspan_newwin(screen: &mut Screen, lines: u32, columns: u32, y: u32, x: u32) -> Answer;
            fn curspan_subwin(screen: &mut Screen, win: u32, lines: u32, columns: u32, y: u32, x: u32) -> Answer;
            fn curspan_derwin(screen: &mut Screen, win: u32, lines: u32, columns: u32, y: u32, x: u32) -> Answer;
            fn curspan_newpad(screen: &mut Screen, lines: u32, columns: u32) -> Answer;
            fn curspan_subpad(screen: &mut Screen, pad: u32, lines: u32, columns: u32, y: u32, x: u32) -> Answer;
            fn curspan_delwin(screen: &mut Screen, win: u32) -> Answer;
            fn curspan_mvwin(screen: &mut Screen, win: u32, y: u32, x: u32) -> Answer;
            fn curspan_mvderwin(screen: &mut Screen, win: u32, y: u32, x: u32) -> Answer;
            fn curspan_wmove(screen: &mut Screen, win: u32, y: u32, x: u32) -> Answer;
            fn curspan_waddch(screen: &mut Screen, win: u32, ch: u32) -> Answer;
            fn curspan_winsch(screen: &mut Screen, win: u32, ch: u32) -> Answer;
            fn curspan_wdelch(screen: &mut Screen, win: u32) -> Answer;
            fn curspan_winsertln(screen: &mut Screen, win: u32) -> Answer;
            fn curspan_wdeleteln(screen: &mut Screen, win: u32) -> Answer;
            fn curspan_werase(screen: &mut Screen, win: u32) -> Answer;
            fn curspan_wclear(screen: &mut Screen, win: u32) -> Answer;
            fn curspan_wclrtoeol(screen: &mut Screen, win: u32) -> Answer;
            fn curspan_wclrtobot(screen: &mut Screen, win: u32) -> Answer;
            fn curspan_wscrl(screen: &mut Screen, win: u32, n: i32) -> Answer;
            fn curspan_wsetscrreg(screen: &mut Screen, win: u32, top: u32, bottom: u32) -> Answer;
            fn curspan_scrollok(screen: &mut Screen, win: u32, flag: bool) -> Answer;
            fn curspan_clearok(screen: &mut Screen, win: u32, flag: bool) -> Answer;
            fn curspan_wattrset(screen: &mut Screen, win: u32, attrs: u8) -> Answer;
            fn curspan_wattron(screen: &mut Screen, win: u32, attrs: u8) -> Answer;
            fn curspan_wattroff(screen: &mut Screen, win: u32, attrs: u8) -> Answer;
            fn curspan_wbkgdset(screen: &mut Screen, win: u32, attrs: u8, ch: u32) -> Answer;
            fn curspan_wcolor_set(screen: &mut Screen, win: u32, pair: u32) -> Answer;
            fn curspan_wbkgdpair(screen: &mut Screen, win: u32, pair: u32) -> Answer;
            fn curspan_overlay(screen: &mut Screen, src: u32, dst: u32) -> Answer;
            fn curspan_overwrite(screen: &mut Screen, src: u32, dst: u32) -> Answer;
            fn curspan_copywin(screen: &mut Screen, src: u32, dst: u32, sminrow: u32, smincol: u32, dminrow: u32, dmincol: u32, dmaxrow: u32, dmaxcol: u32, overlay: bool) -> Answer;
            fn curspan_touchwin(screen: &mut Screen, win: u32) -> Answer;
            fn curspan_untouchwin(screen: &mut Screen, win: u32) -> Answer;
            fn curspan_touchline(screen: &mut Screen, win: u32, y: u32, n: u32) -> Answer;
            fn curspan_wtouchln(screen: &mut Screen, win: u32, y: u32, n: u32, flag: bool) -> Answer;
            fn curspan_wsyncup(screen: &mut Screen, win: u32) -> Answer;
            fn curspan_wsyncdown(screen: &mut Screen, win: u32) -> Answer;
            fn curspan_is_linetouched(screen: &Screen, win: u32, y: u32) -> Answer;
            fn curspan_is_wintouched(screen: &Screen, win: u32) -> Answer;
            fn curspan_getyx(screen: &Screen, win: u32) -> Answer;
            fn curspan_getbegyx(screen: &Screen, win: u32) -> Answer;
            fn curspan_getmaxyx(screen: &Screen, win: u32) -> Answer;
            fn curspan_getparyx(screen: &Screen, win: u32) -> Answer;
            fn curspan_winch(screen: &Screen, win: u32) -> Answer;
            fn curspan_new_panel(screen: &mut Screen, win: u32) -> Answer;
            fn curspan_del_panel(screen: &mut Screen, panel: u32) -> Answer;
            fn curspan_show_panel(screen: &mut Screen, panel: u32) -> Answer;
            fn curspan_hide_panel(screen: &mut Screen, panel: u32) -> Answer;
            fn curspan_top_panel(screen: &mut Screen, panel: u32) -> Answer;
            fn curspan_bottom_panel(screen: &mut Screen, panel: u32) -> Answer;
            fn curspan_move_panel(screen: &mut Screen, panel: u32, y: u32, x: u32) -> Answer;
            fn curspan_replace_panel(screen: &mut Screen, panel: u32, win: u32) -> Answer;
            fn curspan_panel_above(screen: &Screen, panel: u32) -> Answer;
            fn curspan_panel_below(screen: &Screen, panel: u32) -> Answer;
            fn curspan_panel_window(screen: &Screen, panel: u32) -> Answer;
            fn curspan_panel_hidden(screen: &Screen, panel: u32) -> Answer;
            fn curspan_wnoutrefresh(screen: &mut Screen, win: u32) -> Answer;
            fn curspan_pnoutrefresh(screen: &mut Screen, pad: u32, pminrow: u32, pmincol: u32, sminrow: u32, smincol: u32, smaxrow: u32, smaxcol: u32) -> Answer;
            fn curspan_update_panels(screen: &mut Screen) -> Answer;
            fn curspan_init_pair(screen: &mut Screen, pair: u32, foreground: u32, background: u32) -> Answer;
            $($others)*
        }
    };
}
