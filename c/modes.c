/* The modes of the terminal's line, with flags as ncurses has them, and how keys are read. Nothing here is proved. */
#include "inside.h"
#include "terminal.h"

#include <unistd.h>

struct curspan_modes curspan_modes;

static struct termios saved; /* what savetty kept */

static int get(struct termios *modes) {
    return curspan_the_tty.line >= 0 && tcgetattr(curspan_the_tty.line, modes) == 0 ? OK : ERR;
}

static int set(const struct termios *modes) { return curspan_set_modes(&curspan_the_tty, modes, TCSADRAIN) ? OK : ERR; }

static int change(const struct termios *modes) {
    if (set(modes) == ERR) return ERR;
    curspan_the_tty.program = *modes;
    return OK;
}

/* Of both descriptors the input's terminal is taken. */
void curspan_begin_modes(void) {
    struct curspan_tty *terminal = &curspan_the_tty;
    int in = terminal->in, out = terminal->out, line = in >= 0 && isatty(in) ? in : isatty(out) ? out : -1;
    curspan_modes = (struct curspan_modes){.echo = true, .newline = true, .meta = true};
    if (line < 0 || tcgetattr(line, &terminal->shell) != 0) return;
    terminal->program = terminal->shell;
    terminal->line = line; /* from now on a handler of signals sets the modes */
    curspan_modes.meta = (terminal->shell.c_cflag & CSIZE) == CS8 && !(terminal->shell.c_iflag & ISTRIP);
    cbreak();
    struct termios modes = terminal->program;
    modes.c_lflag &= ~(tcflag_t)(ECHO | ECHONL);
    modes.c_iflag &= ~(tcflag_t)(ICRNL | INLCR | IGNCR);
    modes.c_oflag &= ~(tcflag_t)ONLCR;
    change(&modes);
}

void curspan_begin_raw(struct curspan_modes *modes, struct termios *line) {
    struct termios raw = curspan_the_tty.program;
    *modes = curspan_modes;
    if (get(line) == ERR) memset(line, 0, sizeof *line);
    curspan_modes.raw = curspan_modes.cbreak = curspan_modes.newline = true;
    curspan_modes.echo = false;
    curspan_modes.half_delay = 0;
    curspan_make_raw(&raw);
    set(&raw);
}

void curspan_end_raw(const struct curspan_modes *modes, const struct termios *line) {
    curspan_modes = *modes;
    set(line);
}

/* ---- the modes of X/Open */

/* Makes the program's modes others by their flags, and notes how keys are read then. */
static int read_by(tcflag_t local, tcflag_t input, bool is_raw, bool is_cbreak) {
    struct termios modes = curspan_the_tty.program;
    modes.c_lflag = local;
    modes.c_iflag = input;
    if (is_cbreak) curspan_read_at_once(&modes);
    if (change(&modes) == ERR) return ERR;
    curspan_modes.raw = is_raw;
    curspan_modes.cbreak = is_cbreak;
    curspan_modes.half_delay = 0;
    return OK;
}

#define LOCAL curspan_the_tty.program.c_lflag
#define INPUT curspan_the_tty.program.c_iflag
int cbreak(void) {
    return read_by((LOCAL | ISIG) & ~(tcflag_t)ICANON, INPUT & ~(tcflag_t)ICRNL, curspan_modes.raw, true);
}
int nocbreak(void) { return read_by(LOCAL | ICANON, INPUT | ICRNL, curspan_modes.raw, false); }

int raw(void) {
    struct termios modes = curspan_the_tty.program;
    curspan_make_raw(&modes);
    return read_by(modes.c_lflag, modes.c_iflag, true, true);
}

int noraw(void) {
    tcflag_t extended = curspan_the_tty.shell.c_lflag & IEXTEN;
    return read_by(LOCAL | ISIG | ICANON | extended, INPUT | CURSPAN_INPUT_FLAGS, false, false);
}

int halfdelay(int tenths) {
    if (tenths < 1 || tenths > 255 || !stdscr) return ERR;
    cbreak();
    curspan_modes.cbreak = true; /* also where there is no terminal */
    curspan_modes.half_delay = tenths;
    return OK;
}

static int set_mode(bool *mode, bool flag) {
    if (!stdscr) return ERR;
    *mode = flag;
    return OK;
}

int echo(void) { return set_mode(&curspan_modes.echo, true); }
int noecho(void) { return set_mode(&curspan_modes.echo, false); }
int nl(void) { return set_mode(&curspan_modes.newline, true); }
int nonl(void) { return set_mode(&curspan_modes.newline, false); }
int meta(WINDOW *win, bool flag) { return (void)win, set_mode(&curspan_modes.meta, flag); }

int intrflush(WINDOW *win, bool flag) {
    struct termios modes = curspan_the_tty.program;
    (void)win;
    modes.c_lflag = flag ? modes.c_lflag & ~(tcflag_t)NOFLSH : modes.c_lflag | NOFLSH;
    return stdscr ? change(&modes) : ERR;
}

void qiflush(void) { (void)intrflush(NULL, true); }
void noqiflush(void) { (void)intrflush(NULL, false); }
int typeahead(int descriptor) { return (void)descriptor, stdscr ? OK : ERR; }

/* ---- modes of the program and of the shell */

int def_prog_mode(void) { return get(&curspan_the_tty.program); }
int def_shell_mode(void) { return get(&curspan_the_tty.shell); }

int reset_prog_mode(void) {
    if (set(&curspan_the_tty.program) == ERR) return ERR;
    return !curspan_the_tty.is_keypad || curspan_switch_keypad(&curspan_the_tty, true, -1) ? OK : ERR;
}

int reset_shell_mode(void) {
    if (curspan_the_tty.is_keypad) curspan_switch_keypad(&curspan_the_tty, false, -1);
    return set(&curspan_the_tty.shell);
}

int savetty(void) { return get(&saved); }
int resetty(void) { return set(&saved); }

/* ---- what the line has */

static char editing_character(int which) {
    cc_t off = (cc_t)fpathconf(curspan_the_tty.line, _PC_VDISABLE), character = curspan_the_tty.shell.c_cc[which];
    return curspan_the_tty.line < 0 || character == off ? (char)ERR : (char)character;
}

char erasechar(void) { return editing_character(VERASE); }
char killchar(void) { return editing_character(VKILL); }

int baudrate(void) {
    static const struct {
        speed_t code;
        int bits;
    } rates[] = {
        {B50, 50}, {B75, 75}, {B110, 110}, {B134, 134}, {B150, 150}, {B200, 200}, {B300, 300}, {B600, 600},
        {B1200, 1200}, {B1800, 1800}, {B2400, 2400}, {B4800, 4800}, {B9600, 9600}, {B19200, 19200}, {B38400, 38400},
        {B57600, 57600}, {B115200, 115200},
    };
    if (curspan_the_tty.line < 0) return ERR;
    speed_t speed = cfgetospeed(&curspan_the_tty.shell);
    for (size_t i = 0; i < sizeof rates / sizeof rates[0]; i++)
        if (rates[i].code == speed) return rates[i].bits;
    return ERR;
}
