"""The calls on panels: their order of depth, which of them are visible, and where their windows are."""
from .cells import MOST_PANELS
from .making import is_off_screen, least_free, there
from .refusals import E2, E3, E7, E8, E14, E15, E17, refuse
from .world import STANDARD_SCREEN


def panel_there(world, p):
    refuse(p not in world.panels, E2)


def visible_there(world, p):
    panel_there(world, p)
    refuse(p not in world.visible, E15)


def affect(world, p):
    """A call on a panel affects the lines of its window, before the call and after it, each if the panel is visible then."""
    if p in world.visible:
        world.affected.update(world.windows[world.panels[p]].screen_lines())


def want_free_window(world, w):
    """A panel's window is in no other panel, and is neither the standard screen nor a pad."""
    window = there(world, w)
    refuse(w == STANDARD_SCREEN, E14)
    refuse(window.is_pad(), E8)
    refuse(world.is_in_panel(w), E7)


def new_panel(world, w):
    want_free_window(world, w)
    refuse(len(world.panels) >= MOST_PANELS, E17)
    p = least_free(world.panels)
    world.panels[p] = w
    world.visible.append(p)
    affect(world, p)
    return p


def reorder(world, p, order):
    """Gives the visible panels another order, of which only panel p may be elsewhere or missing. One that is on top and stays there affects
    nothing."""
    stays = world.visible[-1:] == [p] == order[-1:]
    if not stays:
        affect(world, p)
    world.visible = order
    if not stays:
        affect(world, p)


def others(world, p):
    return [q for q in world.visible if q != p]


def take_out(world, p):
    reorder(world, p, others(world, p))


def del_panel(world, p):
    panel_there(world, p)
    take_out(world, p)
    del world.panels[p]


def put_on_top(world, p):
    reorder(world, p, others(world, p) + [p])


def show_panel(world, p):
    panel_there(world, p)
    put_on_top(world, p)


def hide_panel(world, p):
    visible_there(world, p)
    take_out(world, p)


def top_panel(world, p):
    visible_there(world, p)
    put_on_top(world, p)


def bottom_panel(world, p):
    visible_there(world, p)
    reorder(world, p, [p] + others(world, p))


def move_panel(world, p, y, x):
    panel_there(world, p)
    window = world.windows[world.panels[p]]
    refuse(is_off_screen(world, window, y, x), E3)
    affect(world, p)
    window.place = (y, x)
    affect(world, p)


def replace_panel(world, p, w):
    panel_there(world, p)
    want_free_window(world, w)
    affect(world, p)
    world.panels[p] = w
    affect(world, p)


def next_in(order, p):
    """The panel next to p in a list, or the first one where p is None; the word none where there is no such panel."""
    behind = order if p is None else order[order.index(p) + 1:]
    return behind[0] if behind else 'none'


def panel_above(world, p):
    if p is not None:
        visible_there(world, p)
    return next_in(world.visible, p)


def panel_below(world, p):
    if p is not None:
        visible_there(world, p)
    return next_in(world.visible[::-1], p)


def panel_window(world, p):
    panel_there(world, p)
    return world.panels[p]


def panel_hidden(world, p):
    panel_there(world, p)
    return p not in world.visible
