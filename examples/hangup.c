/* Runs a program whose standard input is a terminal that hangs up while a line is open.
 *
 *     hangup PROGRAM TEXT
 *
 * writes TEXT to the terminal, waits until the program has read it and waits for more, and closes
 * the terminal's other side: the read that waits fails (EIO). The program's output goes where this
 * program's does. Exits 0 if the program ended by itself, with any status; 2 if the test could not
 * be made.
 */
#define _XOPEN_SOURCE 700
#include <fcntl.h>
#include <stdio.h>
#include <stdlib.h>
#include <string.h>
#include <sys/ioctl.h>
#include <sys/wait.h>
#include <termios.h>
#include <time.h>
#include <unistd.h>

static void fail(const char *what)
{
    perror(what);
    exit(2);
}

/* Whether a process sleeps, as /proc says: the letter behind its name in parentheses. */
static int sleeps(pid_t id)
{
    char path[64], text[512];
    snprintf(path, sizeof path, "/proc/%ld/stat", (long)id);
    FILE *file = fopen(path, "r");
    if (file == NULL)
        fail(path);
    size_t n = fread(text, 1, sizeof text - 1, file);
    fclose(file);
    text[n] = '\0';
    const char *behind = strrchr(text, ')');
    return behind != NULL && behind[1] == ' ' && behind[2] == 'S';
}

static void wait_a_little(void)
{
    const struct timespec tick = {0, 10 * 1000 * 1000};
    nanosleep(&tick, NULL);
}

int main(int count, char **words)
{
    if (count != 3) {
        fprintf(stderr, "usage: hangup PROGRAM TEXT\n");
        return 2;
    }
    int outside = posix_openpt(O_RDWR | O_NOCTTY);
    if (outside < 0 || grantpt(outside) != 0 || unlockpt(outside) != 0)
        fail("a terminal");
    /* Not the program's controlling terminal, so that no signal ends it. */
    int inside = open(ptsname(outside), O_RDWR | O_NOCTTY);
    if (inside < 0)
        fail("the terminal's other side");
    /* Bytes are handed on as they come, and not line by line. */
    struct termios modes;
    if (tcgetattr(inside, &modes) != 0)
        fail("tcgetattr");
    modes.c_lflag &= ~(tcflag_t)(ICANON | ECHO);
    modes.c_cc[VMIN] = 1;
    modes.c_cc[VTIME] = 0;
    if (tcsetattr(inside, TCSANOW, &modes) != 0)
        fail("tcsetattr");
    pid_t id = fork();
    if (id < 0)
        fail("fork");
    if (id == 0) {
        close(outside);
        if (dup2(inside, STDIN_FILENO) < 0)
            fail("dup2");
        close(inside);
        execl(words[1], words[1], (char *)NULL);
        fail(words[1]);
    }
    size_t length = strlen(words[2]);
    if (write(outside, words[2], length) != (ssize_t)length)
        fail("write");
    /* It has read all and waits for more: nothing is left in the terminal, and it sleeps. */
    int left = 1;
    for (int calm = 0, turns = 0; calm < 20; turns++) {
        if (turns == 3000) {
            fprintf(stderr, "hangup: the program does not wait for more\n");
            return 2;
        }
        wait_a_little();
        if (ioctl(inside, FIONREAD, &left) != 0)
            fail("FIONREAD");
        calm = left == 0 && sleeps(id) ? calm + 1 : 0;
    }
    close(inside);
    close(outside);
    int status;
    if (waitpid(id, &status, 0) != id)
        fail("waitpid");
    return WIFEXITED(status) ? 0 : 1;
}
