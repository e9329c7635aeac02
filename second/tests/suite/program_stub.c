/*
 * program_stub.c: stands in for the text program in the tests of its server. It says its text again, unless the text is
 * the name of a fault.
 */
#define _POSIX_C_SOURCE 200809L
#include <signal.h>
#include <stdlib.h>
#include <string.h>
#include <unistd.h>

static char text[1 << 20];

static size_t take_text(void) {
    size_t length = 0;
    ssize_t size;
    while ((size = read(0, text + length, sizeof text - 1 - length)) > 0)
        length += (size_t)size;
    text[length] = 0;
    return length;
}

static int say(int end, const char *from, size_t length) {
    while (length > 0) {
        ssize_t size = write(end, from, length);
        if (size <= 0)
            return 1;
        from += size;
        length -= (size_t)size;
    }
    return 0;
}

int main(int count, char **words) {
    size_t length = take_text();
    if (count != 1 || strcmp(words[0], "analyse") != 0)
        return 4;
    if (strcmp(text, "status") == 0)
        return 3;
    if (strcmp(text, "errors") == 0)
        return say(2, "all is well\n", 12);
    if (strcmp(text, "crash") == 0)
        abort();
    if (strcmp(text, "kills the server") == 0)
        kill(getppid(), SIGKILL);
    return say(1, text, length);
}
