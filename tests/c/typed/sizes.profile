# Another size, which a refresh takes; and then the first one, which only the refresh after endwin takes.
@30x100
@24x80
