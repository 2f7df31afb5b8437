// terminal PROGRAM < SETTINGS: PROGRAM, which is replay or conform, at terminals.
//
// It is given its settings and two and a half million lines of a capture. Where its standard error is a terminal it has to show
// each million lines read, and to clear them at the end; where it is none, nothing.
//
// Then its standard input is a terminal that was closed behind some octets: a read behind them fails. If they end in the middle of
// a line it has to say that it cannot read, and nothing else; a frame that conform rejects before stays rejected.
#include <pty.h>
#include <stdio.h>
#include <stdlib.h>
#include <string.h>
#include <sys/ioctl.h>
#include <sys/wait.h>
#include <termios.h>
#include <unistd.h>

enum { LINES = 2500000, MOST = 65536 };

static char settings[MOST];
static size_t settings_length;

static void fail(const char *why)
{
    fprintf(stderr, "terminal: %s\n", why);
    exit(1);
}

// Writes the settings and the lines, each of another form, to `fd`.
static void give(int fd)
{
    FILE *out = fdopen(fd, "w");
    if (!out || fwrite(settings, 1, settings_length, out) != settings_length)
        fail("cannot give the settings");
    for (int i = 0; i < LINES; i++)
        if (fputs("#\n", out) < 0)
            fail("cannot give a line");
    if (fclose(out))
        fail("cannot give the lines");
}

// Starts the program with these as its standard input, output and error, and closes them here.
static pid_t start(const char *program, int in, int out, int err)
{
    pid_t pid = fork();
    if (pid < 0)
        fail("cannot fork");
    if (pid == 0) {
        if (dup2(in, 0) < 0 || dup2(out, 1) < 0 || dup2(err, 2) < 0)
            _exit(1);
        for (int fd = 3; fd < 64; fd++)
            close(fd);
        execl(program, program, (char *)0);
        _exit(1);
    }
    close(in);
    close(out);
    close(err);
    return pid;
}

// All that is written to the other end, as a text.
static size_t all(int fd, char *text)
{
    size_t n = 0;
    ssize_t got;
    // A terminal that nobody writes to any more reads as an error.
    while (n < MOST - 1 && (got = read(fd, text + n, MOST - 1 - n)) > 0)
        n += got;
    text[n] = 0;
    return n;
}

static void end(pid_t pid)
{
    int status;
    if (waitpid(pid, &status, 0) < 0 || status)
        fail("the program or its input failed");
}

// What the program writes to the end `write_end` of standard error, read from `read_end`.
static size_t told(const char *program, int read_end, int write_end, char *text)
{
    int in[2], out[2];
    if (pipe(in) || pipe(out))
        fail("cannot make a pipe");
    pid_t giver = fork();
    if (giver < 0)
        fail("cannot fork");
    if (giver == 0) {
        close(in[0]);
        give(in[1]);
        _exit(0);
    }
    close(in[1]);
    // The verdict is short, and nobody reads it.
    pid_t pid = start(program, in[0], out[1], write_end);
    size_t n = all(read_end, text);
    end(pid);
    end(giver);
    close(out[0]);
    return n;
}

static void shows_lines(const char *program, const char *name)
{
    static char text[MOST];
    char first[64], second[64];
    int master, slave, plain[2];
    if (openpty(&master, &slave, 0, 0, 0) || pipe(plain))
        fail("cannot open a terminal");
    size_t n = told(program, master, slave, text);
    snprintf(first, sizeof first, "\r%s: 1000000 lines", name);
    snprintf(second, sizeof second, "\r%s: 2000000 lines", name);
    if (strncmp(text, first, strlen(first)) || !strstr(text, second) || strstr(text, "3000000"))
        fail("a terminal is not shown the lines that were read");
    if (text[n - 1] != '\r' || strspn(strstr(text, second) + strlen(second), "\r ") != strlen(strstr(text, second) + strlen(second)))
        fail("what is shown is not cleared");
    if (told(program, plain[0], plain[1], text))
        fail("what is no terminal is told something");
    close(master);
    close(plain[0]);
}

// A terminal that reads as the settings and the capture, and then as an error: its other side is closed. All of that is there to be
// read at once, as long as it is no more than a terminal holds, 4095 octets.
static int closed_behind(const char *capture)
{
    size_t length = strlen(capture);
    int master, slave, held = 0;
    struct termios raw;
    if (openpty(&master, &slave, 0, 0, 0) || tcgetattr(slave, &raw))
        fail("cannot open a terminal");
    // Line feeds stay as they are.
    cfmakeraw(&raw);
    if (settings_length + length > 4095 || tcsetattr(slave, TCSANOW, &raw)
        || write(slave, settings, settings_length) != (ssize_t)settings_length || write(slave, capture, length) != (ssize_t)length)
        fail("cannot write to a terminal");
    for (int i = 0; (size_t)held < settings_length + length; i++) {
        if (i == 1000 || ioctl(master, FIONREAD, &held))
            fail("a terminal does not hold what was written to it");
        usleep(10000);
    }
    close(slave);
    return master;
}

// A pipe that reads as the settings and the capture, and then as ended.
static int ended_behind(const char *capture)
{
    size_t length = strlen(capture);
    int in[2];
    if (pipe(in) || write(in[1], settings, settings_length) != (ssize_t)settings_length
        || write(in[1], capture, length) != (ssize_t)length)
        fail("cannot write to a pipe");
    close(in[1]);
    return in[0];
}

// What the program writes on standard output and on standard error.
static void judge(const char *program, int in, char *wrote, char *said)
{
    int out[2], err[2];
    if (pipe(out) || pipe(err))
        fail("cannot make a pipe");
    pid_t pid = start(program, in, out[1], err[1]);
    all(out[0], wrote);
    all(err[0], said);
    end(pid);
    close(out[0]);
    close(err[0]);
}

static void fails_with_its_input(const char *program, const char *name)
{
    static char whole[MOST], wrote[MOST], said[MOST];
    char fault[64];
    int judges = !strcmp(name, "conform");
    snprintf(fault, sizeof fault, "%s: cannot read\n", name);
    judge(program, ended_behind("A fe37"), whole, said);
    if (!*whole || *said || (judges && strncmp(whole, "rejected line ", 14)))
        fail("a last line without its line feed is not judged");
    judge(program, closed_behind("A fe37"), wrote, said);
    if (*wrote || strcmp(said, fault))
        fail("a line that could not be read to its end is judged, or the fault is not told");
    if (!judges)
        return;
    // Nothing behind a rejected frame is read, so no read fails.
    judge(program, closed_behind("A fe37\nA fe37"), wrote, said);
    if (strcmp(wrote, whole) || *said)
        fail("what stands behind a rejected frame changes the verdict");
}

int main(int count, char **arguments)
{
    if (count != 2)
        fail("usage: terminal PROGRAM < SETTINGS");
    const char *program = arguments[1];
    const char *name = strrchr(program, '/') ? strrchr(program, '/') + 1 : program;
    settings_length = fread(settings, 1, MOST, stdin);
    shows_lines(program, name);
    printf("%s tells a terminal how far it is, and nobody else\n", name);
    fails_with_its_input(program, name);
    printf("%s does not judge a line that it could not read to its end\n", name);
    return 0;
}
