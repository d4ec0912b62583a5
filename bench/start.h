/* How a debug adapter is started, and what it is talked to over: pipes, or TCP. */
#define _GNU_SOURCE
#include "tcp.h"
#include <fcntl.h>
#include <spawn.h>
#include <stdio.h>
#include <stdlib.h>
#include <string.h>

enum wire { PIPES, TCP, WIRES };

static const char *const wires[WIRES] = {[PIPES] = "pipes", [TCP] = "TCP"};

/* A process that was started, and the descriptors that it is written to and read from. */
struct process {
    pid_t pid;
    int in, out;
};

static inline void fail(const char *what)
{
    fprintf(stderr, "bench: %s\n", what);
    exit(1);
}

static inline enum wire wire_of(const char *word)
{
    enum wire wire = PIPES;
    while (wire < WIRES && strcmp(word, wires[wire]))
        wire++;
    if (wire == WIRES)
        fail("a wire is `pipes` or `TCP`");
    return wire;
}

/* Starts a command with these as its standard input, output and error; a stream of -1 stays what it is here. */
static inline pid_t spawn(char *const *command, const int streams[3])
{
    pid_t pid;
    posix_spawn_file_actions_t actions;
    posix_spawn_file_actions_init(&actions);
    for (int i = 0; i < 3; i++)
        if (streams[i] >= 0)
            posix_spawn_file_actions_adddup2(&actions, streams[i], i);
    if (posix_spawnp(&pid, command[0], &actions, NULL, command, environ))
        fail("an adapter does not start");
    posix_spawn_file_actions_destroy(&actions);
    return pid;
}

static inline struct process start_with_pipes(char *const *command)
{
    int to[2], from[2];
    if (pipe2(to, O_CLOEXEC) || pipe2(from, O_CLOEXEC))
        fail("no pipe");
    const int streams[3] = {to[0], from[1], -1};
    struct process started = {spawn(command, streams), to[1], from[0]};
    close(to[0]);
    close(from[1]);
    return started;
}

/* Waits for the line by which it is said that a port is listened on. */
static inline void wait_for_line(int from)
{
    char byte = 0;
    while (byte != '\n')
        if (read(from, &byte, 1) != 1)
            fail("an adapter does not listen");
}

static inline struct process start_with_tcp(char *const *command)
{
    enum { MOST_WORDS = 16 };
    char address[30], *words[MOST_WORDS];
    char *const more[] = {"--listen", address, "--once", NULL};
    int port = free_port(), said[2], count = 0;
    while (command[count])
        count++;
    if (port < 0 || pipe2(said, O_CLOEXEC) || count + sizeof more / sizeof *more > MOST_WORDS)
        fail("no port or pipe, or too many words");
    snprintf(address, sizeof address, HOST ":%d", port);
    memcpy(words, command, (size_t)count * sizeof *words);
    memcpy(words + count, more, sizeof more);
    const int streams[3] = {-1, -1, said[1]};
    pid_t pid = spawn(words, streams);
    close(said[1]);
    wait_for_line(said[0]);
    close(said[0]);
    int connection = connected(port);
    if (connection < 0)
        fail("no connection");
    return (struct process){pid, connection, connection};
}

/* Starts a command, its words ended by NULL. Over TCP it is told to listen on a free port, and to serve one editor. */
static inline struct process start(enum wire wire, char *const *command)
{
    return wire == TCP ? start_with_tcp(command) : start_with_pipes(command);
}
