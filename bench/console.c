/* The job of the console in plain C: read lines, make nodes and edges, answer each command by one write.
   It is the yardstick of bench/console.sh; it tests less than the console does. */
#include <stdint.h>
#include <stdio.h>
#include <stdlib.h>
#include <string.h>
#include <unistd.h>

static uint32_t nodes, edges, room;
static uint32_t (*ends)[2];

static void answer(const char *text, int length) {
    while (length > 0) {
        ssize_t count = write(1, text, length);
        if (count <= 0) exit(4);
        text += count;
        length -= count;
    }
}

/* Reads ` n7`, and gives what stands behind it, or NULL. */
static const char *node(const char *text, uint32_t *number) {
    char *end;
    if (text[0] != ' ' || text[1] != 'n' || text[2] < '1' || text[2] > '9') return NULL;
    unsigned long value = strtoul(text + 2, &end, 10);
    *number = (uint32_t)value;
    return value <= UINT32_MAX ? end : NULL;
}

/* Puts a number behind a front, and a line end behind it. */
static int reply_of(char *reply, const char *front, uint32_t number) {
    char digits[10];
    int length = strlen(front), count = 0;
    memcpy(reply, front, length);
    do digits[count++] = '0' + number % 10; while (number /= 10);
    while (count > 0) reply[length++] = digits[--count];
    reply[length++] = '\n';
    return length;
}

static void run(const char *line) {
    char reply[64];
    uint32_t from, to;
    const char *rest;
    if (strcmp(line, "node") == 0) {
        answer(reply, reply_of(reply, "= n", ++nodes));
    } else if (strncmp(line, "edge", 4) == 0 && (rest = node(line + 4, &from)) && (rest = node(rest, &to)) && !*rest) {
        uint32_t unknown = from > nodes ? from : to > nodes ? to : 0;
        if (unknown) {
            answer(reply, reply_of(reply, "! unknown n", unknown));
            return;
        }
        if (edges == room) {
            room = room ? 2 * room : 4;
            ends = realloc(ends, room * sizeof *ends);
            if (!ends) exit(5);
        }
        ends[edges][0] = from;
        ends[edges][1] = to;
        answer(reply, reply_of(reply, "= e", ++edges));
    } else {
        answer(reply, reply_of(reply, "! syntax ", 1));
    }
}

int main(void) {
    char line[65538];
    while (fgets(line, sizeof line, stdin)) {
        line[strcspn(line, "\n")] = 0;
        run(line);
    }
    return 0;
}
