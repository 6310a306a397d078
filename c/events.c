/* What terminals send, and how it is waited for: bytes come in, and who reads them asks for events. Nothing here is
   proved. */
#include "terminal.h"

#include <errno.h>
#include <poll.h>
#include <unistd.h>

/* ---- bytes */

size_t curspan_read_bytes(struct curspan_tty *tty, size_t most) {
    struct curspan_typed *typed = &tty->typed;
    memmove(typed->bytes, typed->bytes + typed->first, typed->count);
    typed->first = 0;
    if (most > CURSPAN_TYPED - typed->count) most = CURSPAN_TYPED - typed->count;
    ssize_t count = most > 0 ? read(tty->in, typed->bytes + typed->count, most) : -1;
    typed->is_at_end = count == 0 || (count < 0 && most > 0 && errno != EINTR && errno != EAGAIN);
    if (count <= 0) return 0;
    typed->count += (size_t)count;
    typed->came = curspan_now();
    return (size_t)count;
}

void curspan_take_bytes(struct curspan_tty *tty, size_t count) {
    tty->typed.first += count;
    tty->typed.count -= count;
}

int curspan_delay_left(const struct curspan_tty *tty, int delay) {
    return curspan_left_until(delay, tty->typed.came + delay);
}

/* ---- waiting */

bool curspan_is_told(const struct curspan_tty *tty) {
    return CURSPAN_LOOK(tty->was_stopped) || CURSPAN_LOOK(tty->was_resized);
}

void curspan_ring(const struct curspan_tty *tty) {
    const uint64_t one = 1;
    if (write(tty->bell, &one, sizeof one) < 0) return; /* it rings already */
}

bool curspan_silence(struct curspan_tty *tty) {
    uint64_t rung;
    tty->rings = false;
    return read(tty->bell, &rung, sizeof rung) > 0;
}

enum curspan_waited curspan_wait(struct curspan_tty *tty, int milliseconds) {
    long end = milliseconds > 0 ? curspan_now() + milliseconds : 0;
    for (;;) {
        struct pollfd on[] = {{tty->in, POLLIN, 0}, {tty->bell, POLLIN, 0}};
        if (milliseconds != 0 && curspan_is_told(tty)) return WAIT_TOLD;
        int count = poll(on, 2, curspan_left_until(milliseconds, end));
        bool is_rung = count > 0 && on[1].revents && curspan_silence(tty);
        if (count > 0 && on[0].revents) return WAIT_FOUND;
        if (is_rung) return WAIT_TOLD;
        if (count == 0 || milliseconds == 0 || errno != EINTR) return WAIT_OVER;
        bool is_told = curspan_is_told(tty);
        if (!is_told && (milliseconds > 0 || !curspan_handlers_restart())) return WAIT_INTERRUPTED;
    }
}
