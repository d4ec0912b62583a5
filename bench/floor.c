#define _GNU_SOURCE
/* What the measured adapter is held against: a program that reads frames, and answers each from a fixed text with
   one write. It looks at nothing but the length in each header.

   Usage: floor [stops|looks|pauses] [--listen 127.0.0.1:PORT --once]

   With a word it looks for the command too, and its texts are what the adapter answers and tells of a program that stops, or as long as that
   where it looks into one. With `pauses` the program stops only where it is paused. It serves standard input and output, or the first one that
   connects to a port. */
#include "tcp.h"
#include <stdio.h>
#include <stdlib.h>
#include <string.h>

/* What a request is answered: one or two bodies, with their headers; or a body that is filled up to a length. */
struct answer {
    const char *command, *bodies[2];
    size_t filled;
    char bytes[1 << 16];
    size_t length;
};

#define SUCCESS "\"success\":true,\"type\":\"response\"}"
#define STOPPED(reason, seq) "{\"body\":{\"allThreadsStopped\":true,\"reason\":\"" reason "\",\"threadId\":1},\"event\":\"stopped\",\"seq\":" seq ",\"type\":\"event\"}"

/* How long the adapter's answers are, of the program that `bench/run` looks into. */
enum { STACK_TRACE = 260, SCOPES = 248, VARIABLES = 2021, EVALUATE = 133, DISASSEMBLE = 36570, READ_MEMORY = 5588 };

/* The first is that of a command which is not looked for. */
static struct answer answers[] = {
    {"threads", {"{\"body\":{\"threads\":[{\"id\":1,\"name\":\"hart 0\"}]},\"command\":\"threads\",\"request_seq\":2,\"seq\":2," SUCCESS, NULL}, 0, "", 0},
    {"launch", {"{\"command\":\"launch\",\"request_seq\":2,\"seq\":2," SUCCESS, "{\"event\":\"initialized\",\"seq\":3,\"type\":\"event\"}"}, 0, "", 0},
    {"configurationDone", {"{\"command\":\"configurationDone\",\"request_seq\":3,\"seq\":4," SUCCESS, STOPPED("entry", "5")}, 0, "", 0},
    {"next", {"{\"command\":\"next\",\"request_seq\":500,\"seq\":1000," SUCCESS, STOPPED("step", "1001")}, 0, "", 0},
    {"continue",
     {"{\"body\":{\"allThreadsContinued\":true},\"command\":\"continue\",\"request_seq\":500,\"seq\":1000," SUCCESS, STOPPED("breakpoint", "1001")},
     0, "", 0},
    {"setBreakpoints",
     {"{\"body\":{\"breakpoints\":[{\"id\":1,\"instructionReference\":\"0x00010000\",\"line\":1,\"verified\":true}]},"
      "\"command\":\"setBreakpoints\",\"request_seq\":500,\"seq\":1000," SUCCESS,
      NULL},
     0, "", 0},
    {"stepBack", {"{\"command\":\"stepBack\",\"request_seq\":500,\"seq\":1000," SUCCESS, STOPPED("step", "1001")}, 0, "", 0},
    {"reverseContinue", {"{\"command\":\"reverseContinue\",\"request_seq\":500,\"seq\":1000," SUCCESS, STOPPED("step", "1001")}, 0, "", 0},
    {"stepIn", {"{\"command\":\"stepIn\",\"request_seq\":500,\"seq\":1000," SUCCESS, STOPPED("step", "1001")}, 0, "", 0},
    {"pause", {"{\"command\":\"pause\",\"request_seq\":500,\"seq\":1000," SUCCESS, STOPPED("pause", "1001")}, 0, "", 0},
    {"stackTrace", {NULL, NULL}, STACK_TRACE, "", 0},
    {"scopes", {NULL, NULL}, SCOPES, "", 0},
    {"variables", {NULL, NULL}, VARIABLES, "", 0},
    {"evaluate", {NULL, NULL}, EVALUATE, "", 0},
    {"disassemble", {NULL, NULL}, DISASSEMBLE, "", 0},
    {"readMemory", {NULL, NULL}, READ_MEMORY, "", 0},
};

enum { ANSWERS = sizeof answers / sizeof *answers };

static char room[1 << 17];

/* A success whose body is filled with a text. */
static void fill(struct answer *a)
{
    static const char before[] = "{\"body\":{\"text\":\"", after[] = "\"},\"request_seq\":500,\"seq\":1000," SUCCESS;
    a->length = (size_t)sprintf(a->bytes, "Content-Length: %zu\r\n\r\n%s", a->filled, before);
    size_t text = a->filled - (sizeof before - 1) - (sizeof after - 1);
    memset(a->bytes + a->length, 'x', text);
    memcpy(a->bytes + a->length + text, after, sizeof after - 1);
    a->length += text + sizeof after - 1;
}

static void write_headers(struct answer *a)
{
    if (a->filled) {
        fill(a);
        return;
    }
    for (int i = 0; i < 2 && a->bodies[i]; i++)
        a->length += (size_t)sprintf(a->bytes + a->length, "Content-Length: %zu\r\n\r\n%s", strlen(a->bodies[i]), a->bodies[i]);
}

static struct answer *answer_of(const char *command)
{
    for (int i = 1; i < ANSWERS; i++)
        if (!strncmp(command, answers[i].command, strlen(answers[i].command)))
            return &answers[i];
    return &answers[0];
}

static const struct answer *answer_to(const char *frame, size_t length)
{
    static const char before[] = "\"command\":\"";
    const char *name = memmem(frame, length, before, sizeof before - 1);
    return name == NULL ? &answers[0] : answer_of(name + sizeof before - 1);
}

/* Says that a port is listened on, and makes its first peer standard input and output. */
static int take_first_peer(const char *address)
{
    int listening = socket_at(atoi(strchr(address, ':') + 1));
    if (listen(listening, 1))
        return -1;
    fprintf(stderr, "listening on %s\n", address);
    int peer = first_peer(listening);
    return dup2(peer, 0) < 0 || dup2(peer, 1) < 0 ? -1 : 0;
}

int main(int words, char **word)
{
    const char *way = words > 1 && word[1][0] != '-' ? word[1] : NULL;
    if (words > 3 && take_first_peer(word[words - 2]))
        return 1;
    size_t have = 0;
    if (way != NULL && !strcmp(way, "pauses"))
        answer_of("continue")->bodies[1] = NULL;
    for (int i = 0; i < ANSWERS; i++)
        write_headers(&answers[i]);
    for (;;) {
        ssize_t got = read(0, room + have, sizeof room / 2);
        if (got <= 0)
            return 0;
        have += (size_t)got;
        size_t at = 0;
        for (;;) {
            char *end = memmem(room + at, have - at, "\r\n\r\n", 4);
            if (end == NULL)
                break;
            size_t length = (size_t)atol(room + at + strlen("Content-Length: "));
            size_t whole = (size_t)(end - room) + 4 + length;
            if (whole > have)
                break;
            const struct answer *a = way ? answer_to(end, length + 4) : &answers[0];
            if (write(1, a->bytes, a->length) != (ssize_t)a->length)
                return 1;
            at = whole;
        }
        memmove(room, room + at, have - at);
        have -= at;
    }
}
