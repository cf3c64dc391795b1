/* fed pipe COMMAND.. or fed terminal COMMAND..: the command reads what stands on standard input, but part by part, each part once the one before it
 * is taken. So a command shows itself that takes what one read brings for all that there is. The status is the command's. */
#define _XOPEN_SOURCE 700

#include "expect.h"
#include "guard.h"

#include <fcntl.h>
#include <poll.h>
#include <signal.h>
#include <string.h>
#include <sys/wait.h>
#include <termios.h>
#include <time.h>
#include <unistd.h>

/* What a user types: END hands over a line without a newline, QUOTE takes the meaning from the byte behind it. */
enum { END = 4, NEWLINE = 10, QUOTE = 22 };

/* A terminal keeps 4,095 bytes of a line, END among them. */
enum { MOST_LINE = 4000 };

/* How long the command may leave a part, and how long it may go on after the last one. */
enum { MOST_SECONDS = 30 };

/* Parts go in at one end and the command reads them at the other. */
typedef struct feeding {
    bool terminal;
    int in, out;
    pid_t command;
    bool ended;
    int status;
} feeding;

static void open_pipe(feeding *f) {
    int ends[2];
    EXPECT(pipe(ends) == 0);
    f->out = ends[0];
    f->in = ends[1];
}

/* Nothing is echoed or altered, and no byte but END, QUOTE and the newline has a meaning. */
static void open_terminal(feeding *f) {
    f->in = posix_openpt(O_RDWR | O_NOCTTY);
    EXPECT(f->in >= 0 && grantpt(f->in) == 0 && unlockpt(f->in) == 0);
    f->out = open(ptsname(f->in), O_RDWR | O_NOCTTY);
    struct termios t;
    EXPECT(f->out >= 0 && tcgetattr(f->out, &t) == 0);
    t.c_iflag = t.c_oflag = 0;
    t.c_lflag = ICANON | IEXTEN;
    memset(t.c_cc, _POSIX_VDISABLE, sizeof t.c_cc);
    t.c_cc[VEOF] = END;
    t.c_cc[VLNEXT] = QUOTE;
    EXPECT(tcsetattr(f->out, TCSANOW, &t) == 0);
}

static void start(feeding *f, char **command) {
    f->command = fork();
    EXPECT(f->command >= 0);
    if (f->command > 0) return;
    EXPECT(dup2(f->out, STDIN_FILENO) == STDIN_FILENO);
    close(f->in);
    close(f->out);
    execvp(command[0], command);
    perror(command[0]);
    _exit(127);
}

static bool is_taken(const feeding *f) {
    struct pollfd left = {.fd = f->out, .events = POLLIN};
    int ready = poll(&left, 1, 0);
    EXPECT(ready >= 0);
    return ready == 0;
}

static void pause_for(long microseconds) {
    nanosleep(&(struct timespec){.tv_nsec = 1000 * microseconds}, NULL);
}

/* Waits for a part to be taken, or for the command's end. */
static void wait_for(feeding *f, bool end) {
    time_t last = time(NULL) + MOST_SECONDS;
    while (time(NULL) <= last) {
        pause_for(200);
        f->ended = waitpid(f->command, &f->status, WNOHANG) == f->command;
        if (f->ended || (!end && is_taken(f))) return;
    }
    kill(f->command, SIGKILL);
    fprintf(stderr, "fed: %d seconds, and the command does not %s\n", MOST_SECONDS, end ? "end" : "read on");
    exit(1);
}

static void put(const feeding *f, const uint8_t *bytes, size_t length) {
    while (length > 0) {
        ssize_t wrote = write(f->in, bytes, length);
        EXPECT(wrote > 0);
        bytes += wrote;
        length -= (size_t)wrote;
    }
}

/* A line without a byte is the end of the input. */
static void put_line(const feeding *f, const uint8_t *bytes, size_t length) {
    uint8_t typed[2 * MOST_LINE + 1];
    size_t count = 0;
    for (size_t i = 0; i < length; i++) {
        if (bytes[i] == END || bytes[i] == QUOTE) typed[count++] = QUOTE;
        typed[count++] = bytes[i];
    }
    if (length == 0 || bytes[length - 1] != NEWLINE) typed[count++] = END;
    put(f, typed, count);
}

/* A newline ends its line. */
static size_t line_length(const uint8_t *bytes, size_t most) {
    size_t length = most < MOST_LINE ? most : MOST_LINE;
    const uint8_t *newline = memchr(bytes, NEWLINE, length);
    return newline == NULL ? length : (size_t)(newline - bytes) + 1;
}

/* Gives the part's length. */
static size_t put_part(const feeding *f, const uint8_t *bytes, size_t most) {
    size_t length = f->terminal ? line_length(bytes, most) : most;
    (f->terminal ? put_line : put)(f, bytes, length);
    return length;
}

/* A command that has read enough may end before its input does. */
static void feed(feeding *f, guarded record) {
    static const size_t lengths[] = {1, 2, 3, 5, 7, 100, 4096, 9000};
    size_t at = 0;
    for (size_t i = 0; at < record.length && !f->ended; i = (i + 1) % (sizeof lengths / sizeof *lengths)) {
        size_t left = record.length - at;
        at += put_part(f, record.bytes + at, lengths[i] < left ? lengths[i] : left);
        wait_for(f, false);
        /* Now and then nothing more comes for a while. */
        if (i == 0) pause_for(1000);
    }
    if (f->ended) return;
    if (f->terminal) {
        put_line(f, NULL, 0);
    } else {
        close(f->in);
    }
    wait_for(f, true);
}

int main(int argc, char **argv) {
    EXPECT(argc > 2);
    feeding f = {.terminal = strcmp(argv[1], "terminal") == 0};
    EXPECT(f.terminal || strcmp(argv[1], "pipe") == 0);
    guarded record = guard_file(stdin);
    (f.terminal ? open_terminal : open_pipe)(&f);
    start(&f, argv + 2);
    feed(&f, record);
    unguard(record);
    return WIFEXITED(f.status) ? WEXITSTATUS(f.status) : 128 + WTERMSIG(f.status);
}
