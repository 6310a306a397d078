"""Windows, pads and panels: arguments that may be left out or have names, settings, lines, and objects that are gone."""
import copy
import gc
import pickle
import unittest
import weakref

import curspan
from curspan import Attr, Cell, Screen


class Arguments(unittest.TestCase):
    def setUp(self):
        self.screen = Screen(10, 30)
        self.window = self.screen.newwin(5, 20, 2, 3)

    def test_places_that_are_left_out(self):
        window = self.window
        window.addstr('ab')
        window.addch('c')
        window.addstr(1, 2, b'de')
        window.addch(2, 3, ord('f'))
        window.insch(2, 0, b'g')
        self.assertEqual([line.rstrip() for line in window], ['abc', '  de', 'g   f', '', ''])
        self.assertEqual(window.getyx(), (2, 0))
        window.delch(0, 1)
        window.delch()
        self.assertEqual((window.line(0).rstrip(), window.getyx()), ('a', (0, 1)))
        self.assertEqual(window.inch(1, 3), Cell('e', Attr(0), 0))
        self.assertEqual(window.getyx(), (0, 1))
        window.move(2, 4)
        self.assertEqual(window.inch(), ('f', Attr(0), 0))

    def test_attributes_of_one_text(self):
        window = self.window
        window.attrs, window.pair = Attr.DIM, 3
        window.addstr('a', Attr.BOLD)
        window.addstr('b', attrs=Attr(0), pair=5)
        window.addch(1, 0, 'c', pair=7)
        window.insch(2, 0, 'd', Attr.BOLD | Attr.BLINK)
        window.addstr(3, 0, 'e', None)
        self.assertEqual((window.attrs, window.pair), (Attr.DIM, 3))
        self.assertEqual([window.inch(*place) for place in ((0, 0), (0, 1), (1, 0), (2, 0), (3, 0))],
                         [Cell('a', Attr.BOLD, 3), Cell('b', Attr(0), 5), Cell('c', Attr.DIM, 7), Cell('d', Attr.BOLD | Attr.BLINK, 3),
                          Cell('e', Attr.DIM, 3)])

    def test_a_refused_call_changes_nothing(self):
        window = self.window
        window.move(1, 1)
        before = list(window), window.getyx(), window.attrs, window.pair
        for call in (lambda: window.addstr(0, 0, 'a\tb'), lambda: window.addstr(0, 0, 'a', Attr.BOLD, pair=64), lambda: window.addch(0, 0, 'é'),
                     lambda: window.addstr('ab\x7f', Attr.BOLD, pair=1), lambda: window.insch(0, 0, '\n'), lambda: window.addstr(9, 0, 'x'),
                     lambda: window.addstr('\ud800'), lambda: window.addch(256 + ord('a')), lambda: window.inch(0, 20), lambda: window.inch(5, 0),
                     lambda: window.inch(-1, -1), lambda: window.move(-1, 0), lambda: window.move(2**64, 0), lambda: window.delch(0, 65536)):
            with self.subTest(call=call), self.assertRaises(curspan.Refusal):
                call()
            self.assertEqual((list(window), window.getyx(), window.attrs, window.pair), before)

    def test_names(self):
        window = self.window
        window.move(y=1, x=2)
        window.move(3, x=4)
        self.assertEqual(window.getyx(), (3, 4))
        derived = window.derwin(x=5)
        self.assertEqual((derived.getmaxyx(), derived.getparyx()), ((5, 15), (0, 5)))
        self.assertEqual(self.screen.newwin().getmaxyx(), (10, 30))
        window.scrollok()
        window.scroll()
        window.scroll(n=-10**12)
        window.copywin(self.screen.stdscr, 0, 0, 0, 0, dmaxrow=1, dmaxcol=1)

    def test_wrong_types(self):
        window = self.window
        for call in (lambda: window.move(1), lambda: window.move(1, 2, 3), lambda: window.move(1, 2, x=2), lambda: window.move(1, z=2),
                     lambda: window.move('1', 2), lambda: window.move(1.0, 2), lambda: window.addstr(), lambda: window.addstr(3),
                     lambda: window.addstr(0, 0, 'a', Attr.BOLD, 1), lambda: window.addstr('a', 1), lambda: window.addstr('a', attr=1),
                     lambda: window.addstr('a', Attr.BOLD, attrs=Attr.BOLD), lambda: window.addch('ab'), lambda: window.addch(''),
                     lambda: window.attrset(1), lambda: window.attrset(None), lambda: window.overlay(3), lambda: window.delch(1), lambda: window.inch(y=1),
                     lambda: window.row('x'), lambda: window.erase(1), lambda: window.overlay(self.screen)):
            with self.subTest(call=call), self.assertRaises(TypeError):
                call()

    def test_numbers_of_other_types(self):
        class Number:
            def __index__(self):
                return 2
        self.window.move(True, Number())
        self.assertEqual(self.window.getyx(), (1, 2))


class Settings(unittest.TestCase):
    def test_settings(self):
        window = Screen(10, 30).newwin(5, 20)
        self.assertEqual((window.attrs, window.pair, window.background, window.region, window.scrolling, window.clearing),
                         (Attr(0), 0, Cell(' '), (0, 4), False, False))
        window.attrs |= Attr.BOLD
        window.attron(Attr.DIM)
        window.attroff(Attr.BOLD)
        window.color_set(9)
        window.setscrreg(1, 3)
        window.scrolling = window.clearing = True
        window.background = Cell('.', Attr.REVERSE, 2)
        self.assertEqual((window.attrs, window.pair, window.background, window.region, window.scrolling, window.clearing),
                         (Attr.DIM, 9, Cell('.', Attr.REVERSE, 2), (1, 3), True, True))
        window.bkgdset('+', Attr.BOLD)
        window.bkgdset('-', None)
        window.bkgdset('-')
        window.bkgdpair(4)
        self.assertEqual(window.background, Cell('-', Attr(0), 4))

    def test_refused_settings(self):
        window = Screen(10, 30).newwin(5, 20)
        window.background = Cell('.', Attr.DIM, 2)
        for name, value, why in (('pair', 64, curspan.BadPair), ('background', Cell('x', Attr(0), 64), curspan.BadPair), ('background', Cell('\n'), curspan.BadCharacter), ('background', '.', TypeError),
                                 ('region', (3, 2), curspan.BadRegion), ('region', (0, 5), curspan.BadRegion), ('region', 3, TypeError),
                                 ('attrs', 1, TypeError), ('attrs', None, TypeError), ('pair', 'x', TypeError), ('number', 3, AttributeError), ('color', 3, AttributeError)):
            with self.subTest(name=name, value=value), self.assertRaises(why):
                setattr(window, name, value)
            self.assertEqual((window.background, window.pair, window.region), (Cell('.', Attr.DIM, 2), 0, (0, 4)))
        with self.assertRaises(AttributeError):
            del window.attrs

    def test_relations(self):
        screen = Screen(10, 30)
        window, pad = screen.newwin(5, 20), screen.newpad(100, 100)
        derived, sub, subpad = window.derwin(2, 2, 1, 1), window.subwin(2, 2, 1, 1), pad.subpad(3, 3, 1, 1)
        self.assertEqual([it.parent for it in (screen.stdscr, window, derived, sub, pad, subpad)], [None, None, window, window, None, pad])
        self.assertEqual([type(it) for it in (derived, sub, pad, subpad)], [curspan.Window, curspan.Window, curspan.Pad, curspan.Pad])
        self.assertEqual((window.lines, window.columns, window.number, window.screen, window.panel), (5, 20, 1, screen, None))
        panel = window.new_panel()
        self.assertEqual((window.panel, panel.window(), panel.number, panel.screen), (panel, window, 1, screen))
        self.assertEqual(repr([window, pad, panel]), '[<curspan.Window 1, 5 by 20>, <curspan.Pad 2, 100 by 100>, <curspan.Panel 1 of window 1>]')
        with self.assertRaises(curspan.IsPad):
            pad.new_panel()
        with self.assertRaises(AttributeError):
            window.subpad(1, 1)


class Gone(unittest.TestCase):
    def setUp(self):
        self.screen = Screen(10, 30)

    def test_a_number_that_was_given_again(self):
        old = self.screen.newwin(2, 2)
        old_panel = old.new_panel()
        old_panel.delete()
        old.delete()
        new = self.screen.newwin(3, 3)
        new_panel = new.new_panel()
        self.assertEqual((new.number, new_panel.number), (1, 1))
        for call in (old.erase, old.delete, old.getyx, old.new_panel, lambda: old.addstr('x'), lambda: old.addstr(0, 0, 'x', Attr.BOLD),
                     lambda: list(old), lambda: old.attrs, lambda: old.number, lambda: old.parent, lambda: old.panel, lambda: new.overlay(old),
                     lambda: old.overlay(new), lambda: new_panel.replace(old), lambda: old.row(0), lambda: setattr(old, 'attrs', Attr.BOLD)):
            with self.subTest(call=call), self.assertRaises(curspan.NoSuchWindow):
                call()
        for call in (old_panel.hide, old_panel.delete, old_panel.above, old_panel.window, lambda: old_panel.move(0, 0), lambda: old_panel.number):
            with self.subTest(call=call), self.assertRaises(curspan.NoSuchPanel):
                call()
        self.assertEqual(repr([old, old_panel]), '[<curspan.Window, deleted>, <curspan.Panel, deleted>]')
        self.assertEqual(list(new), ['   '] * 3)

    def test_refused_deletions(self):
        window = self.screen.newwin(2, 2)
        panel, derived = window.new_panel(), window.derwin(1, 1)
        for why in (curspan.InPanel, curspan.HasDerived):
            with self.assertRaises(why):
                window.delete()
            window.erase()
            if why is curspan.InPanel:
                panel.delete()
        with self.assertRaises(curspan.StandardScreen):
            self.screen.stdscr.delete()
        derived.delete()
        window.delete()

    def test_other_screens(self):
        other = Screen(10, 30).newwin(2, 2)
        window = self.screen.newwin(2, 2)
        panel = self.screen.newwin(2, 2).new_panel()
        for call in (lambda: window.overlay(other), lambda: panel.replace(other), lambda: other.copywin(window, 0, 0, 0, 0, 1, 1)):
            with self.subTest(call=call), self.assertRaises(curspan.NoSuchWindow):
                call()

    def test_one_object_each(self):
        window = self.screen.newwin(2, 2)
        panel = window.new_panel()
        self.assertIs(self.screen.windows[1], window)
        self.assertIs(self.screen.stack[0].window(), window)
        number = window.number
        del window
        gc.collect()
        self.assertEqual(panel.window().number, number)      # a window stays where no object is in use
        panel.window().addstr('x')
        self.assertEqual(panel.window().line(0), 'x ')

    def test_with(self):
        with self.screen.newwin(2, 2) as window, window.new_panel() as panel:
            self.assertEqual(self.screen.stack, [panel])
        self.assertEqual((self.screen.stack, self.screen.windows), ([], [self.screen.stdscr]))
        with self.screen.newwin(2, 2) as window:
            window.delete()
        with self.assertRaises(curspan.InPanel), self.screen.newwin(2, 2) as window:
            window.new_panel()
        with self.assertRaises(ZeroDivisionError), window.derwin(1, 1) as derived:
            derived.derwin(1, 1)
            raise ZeroDivisionError
        self.assertEqual(len(self.screen.windows), 4)
        with Screen(3, 3) as screen, screen.newwin(1, 1) as window, window.new_panel():
            screen.close()

    def test_a_window_keeps_its_screen(self):
        window = Screen(4, 4).newwin(2, 2)
        gc.collect()
        window.addstr('x')
        self.assertEqual(window.screen.lines, 4)

    def test_copies_are_refused(self):
        for thing in (self.screen, self.screen.stdscr):
            for copied in (copy.copy, copy.deepcopy, pickle.dumps):
                with self.subTest(thing=thing, how=copied), self.assertRaises(TypeError):
                    copied(thing)

    def test_a_cycle_is_collected(self):
        class File:
            def write(self, data):
                self.took = data
        file = File()
        screen = Screen(4, 4, file)
        file.screen, file.window, file.panel = screen, screen.newwin(2, 2), screen.newwin(1, 1).new_panel()
        gone = weakref.ref(file)
        del file, screen
        gc.collect()
        self.assertIsNone(gone())

    def test_values(self):
        self.assertEqual(pickle.loads(pickle.dumps(Attr.BOLD | Attr.DIM)), Attr.BOLD | Attr.DIM)
        self.assertEqual(pickle.loads(pickle.dumps(Cell('x', Attr.BOLD))), Cell('x', Attr.BOLD))
        self.assertIs(pickle.loads(pickle.dumps(curspan.OffScreen('x'))).__class__, curspan.OffScreen)


if __name__ == '__main__':
    unittest.main()
