/* A page that many write on at once: board PORT. Each connection to the port, from this machine, has a screen of its own, of the size that
   its first line names, as "24 80". Then it sends keys: arrows move its cursor, letters are written there, ^L draws all anew, and ^C ends.
   From a terminal:

       stty raw -echo; { stty size; cat; } | nc 127.0.0.1 PORT; stty sane

   One process serves all, and waits for none. A screen is only drawn when all bytes of its last picture are on their way, so a slow
   connection skips pictures, and gets the newest when it takes bytes again. One that breaks is dropped. */
#include <curspan.h>
#include <arpa/inet.h>
#include <errno.h>
#include <poll.h>
#include <stdio.h>
#include <stdlib.h>
#include <string.h>
#include <sys/socket.h>
#include <unistd.h>

enum { PEERS = 1000, LINES = 100, COLUMNS = 200, CONTROL_C = 3, CONTROL_L = 12, ESCAPE = 27 };

/* A connection. Its screen is closed until it named a size. */
struct peer {
    int socket; /* -1 where there is no connection */
    curspan screen;
    uint32_t page, status, lines, columns, y, x; /* its windows, the size of what it sees of the page, and its cursor there */
    unsigned drawn;                              /* the last change that it was drawn after */
    bool moved;                                  /* whether its cursor moved since then */
    char typed[100];                             /* what came and isn't a whole line or key yet */
    size_t length;
    uint8_t *bytes; /* the picture that is on its way, if one is */
    size_t sent, count;
};

static struct peer peers[PEERS];
static int count_of_peers;
static char page[LINES][COLUMNS];
static unsigned change = 1, changed[LINES]; /* the last change, and that of each line */

/* Ends a connection, whose place is free then. */
static void drop(struct peer *peer) {
    close(peer->socket);
    curspan_close(&peer->screen);
    free(peer->bytes);
    *peer = (struct peer){.socket = -1};
    count_of_peers--;
    change++;
}

/* Makes a window, and answers whether that was done. */
static bool made(curspan_answer answer, uint32_t *window) {
    *window = answer.first;
    return answer.status == CURSPAN_OK;
}

/* Opens a screen: the page, above a line that tells who is there. */
static bool open_screen(struct peer *peer, uint32_t lines, uint32_t columns) {
    curspan *screen = &peer->screen;
    if (lines < 2 || curspan_open(screen, lines, columns).status != CURSPAN_OK) return false;
    if (!made(curspan_derwin(screen, 0, lines - 1, 0, 0, 0), &peer->page)) return false;
    if (!made(curspan_derwin(screen, 0, 1, 0, lines - 1, 0), &peer->status)) return false;
    curspan_wbkgdset(screen, peer->status, CURSPAN_REVERSE, ' ');
    peer->lines = lines - 1 < LINES ? lines - 1 : LINES;
    peer->columns = columns < COLUMNS ? columns : COLUMNS;
    return true;
}

/* Draws the lines that changed since the last time, and takes the bytes. */
static void draw(struct peer *peer) {
    char status[80];
    curspan *screen = &peer->screen;
    for (uint32_t y = 0; y < peer->lines; y++) {
        if (changed[y] <= peer->drawn) continue;
        curspan_wmove(screen, peer->page, y, 0);
        curspan_waddstr(screen, peer->page, page[y], peer->columns);
    }
    int length = snprintf(status, sizeof status, " %d here, you at %u %u", count_of_peers, (unsigned)peer->y, (unsigned)peer->x);
    curspan_werase(screen, peer->status);
    curspan_waddstr(screen, peer->status, status, (size_t)length);
    curspan_wmove(screen, peer->page, peer->y, peer->x);
    curspan_wnoutrefresh(screen, peer->status);
    curspan_wnoutrefresh(screen, peer->page);
    curspan_doupdate(screen);
    peer->count = curspan_take(screen, NULL, 0);
    peer->sent = 0;
    if (peer->count == 0 || !(peer->bytes = malloc(peer->count))) return; /* without memory they come with the next picture */
    curspan_take(screen, peer->bytes, peer->count);
}

/* Draws the newest picture, unless one is on its way or it is shown already. */
static void draw_newest(struct peer *peer) {
    if (!peer->page || peer->bytes || (peer->drawn == change && !peer->moved)) return;
    draw(peer);
    peer->drawn = change;
    peer->moved = false;
}

/* Sends as much as the connection takes now, and answers whether it goes on. */
static bool send_waiting(struct peer *peer) {
    if (!peer->bytes) return true;
    ssize_t sent = send(peer->socket, peer->bytes + peer->sent, peer->count - peer->sent, MSG_NOSIGNAL | MSG_DONTWAIT);
    if (sent < 0) return errno == EAGAIN || errno == EINTR;
    peer->sent += (size_t)sent;
    if (peer->sent == peer->count) {
        free(peer->bytes);
        peer->bytes = NULL;
    }
    return true;
}

static void move_by(struct peer *peer, int down, int right) {
    uint32_t y = peer->y + (uint32_t)down, x = peer->x + (uint32_t)right;
    peer->moved = true;
    if (y < peer->lines) peer->y = y;
    if (x < peer->columns) peer->x = x;
}

/* Does what a key says, and answers whether the connection goes on. */
static bool obey_key(struct peer *peer, const char *key) {
    switch (key[0]) {
    case CONTROL_C: return false;
    case CONTROL_L: /* the terminal may show anything */
        curspan_invalidate(&peer->screen);
        peer->moved = true;
        break;
    case ESCAPE:
        if (key[2] == 'A') move_by(peer, -1, 0);
        if (key[2] == 'B') move_by(peer, 1, 0);
        if (key[2] == 'C') move_by(peer, 0, 1);
        if (key[2] == 'D') move_by(peer, 0, -1);
        break;
    default:
        if (key[0] < ' ' || key[0] > '~') break;
        page[peer->y][peer->x] = key[0];
        changed[peer->y] = ++change;
        move_by(peer, 0, 1);
    }
    return true;
}

/* Obeys a line or a key, and answers whether the connection goes on. */
static bool obey(struct peer *peer, const char *next) {
    unsigned lines, columns;
    if (peer->page) return obey_key(peer, next);
    return sscanf(next, "%u %u", &lines, &columns) == 2 && open_screen(peer, lines, columns);
}

/* How many of some bytes are a line, where that is wanted, or a key, and 0 where it isn't whole yet. */
static size_t length_of_next(const struct peer *peer, const char *next, size_t length) {
    if (!peer->page) {
        const char *end = memchr(next, '\n', length);
        return end ? (size_t)(end - next) + 1 : 0;
    }
    if (length > 0 && next[0] == ESCAPE) return length < 3 ? 0 : 3;
    return length > 0;
}

/* Reads what came, and answers whether the connection goes on. */
static bool read_keys(struct peer *peer) {
    char *next = peer->typed;
    ssize_t count = recv(peer->socket, next + peer->length, sizeof peer->typed - 1 - peer->length, MSG_DONTWAIT);
    if (count < 0) return errno == EAGAIN || errno == EINTR;
    if (count == 0) return false; /* also where a line fills all of its room */
    peer->length += (size_t)count;
    next[peer->length] = 0;
    for (size_t length; (length = length_of_next(peer, next, peer->length)) > 0; next += length, peer->length -= length)
        if (!obey(peer, next)) return false;
    memmove(peer->typed, next, peer->length);
    return true;
}

static int listen_at(uint16_t port) {
    int listening = socket(AF_INET, SOCK_STREAM, 0), on = 1;
    struct sockaddr_in address = {.sin_family = AF_INET, .sin_port = htons(port), .sin_addr.s_addr = htonl(INADDR_LOOPBACK)};
    setsockopt(listening, SOL_SOCKET, SO_REUSEADDR, &on, sizeof on);
    if (bind(listening, (struct sockaddr *)&address, sizeof address) != 0 || listen(listening, 100) != 0) return -1;
    return listening;
}

/* Gives a place to the next connection. */
static void let_in(int listening) {
    struct peer *peer = peers;
    int socket = accept(listening, NULL, NULL), few = 4096;
    if (socket < 0) return;
    setsockopt(socket, SOL_SOCKET, SO_SNDBUF, &few, sizeof few); /* pictures that the system keeps would grow old */
    while (peer->socket >= 0) peer++;
    *peer = (struct peer){.socket = socket};
    count_of_peers++;
    change++;
}

/* Waits until something comes or can be sent, and does that. */
static void serve(int listening) {
    static struct pollfd polled[PEERS + 1];
    for (int i = 0; i < PEERS; i++) {
        polled[i].fd = peers[i].socket;
        polled[i].events = peers[i].bytes ? POLLIN | POLLOUT : POLLIN;
    }
    polled[PEERS].fd = count_of_peers < PEERS ? listening : -1;
    polled[PEERS].events = POLLIN;
    if (poll(polled, PEERS + 1, -1) < 0) return;
    if (polled[PEERS].revents) let_in(listening);
    for (int i = 0; i < PEERS; i++) {
        struct peer *peer = &peers[i];
        if (polled[i].fd >= 0 && polled[i].revents && (!send_waiting(peer) || !read_keys(peer))) drop(peer);
    }
    for (int i = 0; i < PEERS; i++) draw_newest(&peers[i]);
}

int main(int count, char **words) {
    int listening = count == 2 ? listen_at((uint16_t)atoi(words[1])) : -1;
    if (listening < 0) {
        fputs("usage: board PORT, which nobody else listens at\n", stderr);
        return 2;
    }
    memset(page, ' ', sizeof page);
    for (int i = 0; i < PEERS; i++) peers[i].socket = -1;
    for (;;) serve(listening);
}
