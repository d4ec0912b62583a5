/* TCP on the loopback: a socket at a port, one end that takes a peer, and one that connects. What they send goes out at once. */
#include <arpa/inet.h>
#include <netinet/tcp.h>
#include <sys/socket.h>
#include <unistd.h>

#define HOST "127.0.0.1"

static inline struct sockaddr_in address_of(int port)
{
    return (struct sockaddr_in){.sin_family = AF_INET, .sin_port = htons((in_port_t)port), .sin_addr = {inet_addr(HOST)}};
}

/* A socket at this port, or at a free one where that is 0; -1 where there is none. */
static inline int socket_at(int port)
{
    struct sockaddr_in address = address_of(port);
    int s = socket(AF_INET, SOCK_STREAM | SOCK_CLOEXEC, 0);
    return bind(s, (struct sockaddr *)&address, sizeof address) ? -1 : s;
}

/* A port that is free, or -1. */
static inline int free_port(void)
{
    struct sockaddr_in address;
    socklen_t size = sizeof address;
    int s = socket_at(0);
    int failed = getsockname(s, (struct sockaddr *)&address, &size);
    close(s);
    return failed ? -1 : ntohs(address.sin_port);
}

/* The connection, which sends at once from now on, or -1. */
static inline int sent_at_once(int connection)
{
    int yes = 1;
    return setsockopt(connection, IPPROTO_TCP, TCP_NODELAY, &yes, sizeof yes) ? -1 : connection;
}

/* The connection of the first peer of a socket that listens, or -1. */
static inline int first_peer(int listening)
{
    return sent_at_once(accept(listening, NULL, NULL));
}

/* A connection to this port, or -1. */
static inline int connected(int port)
{
    struct sockaddr_in address = address_of(port);
    int s = socket(AF_INET, SOCK_STREAM | SOCK_CLOEXEC, 0);
    return connect(s, (struct sockaddr *)&address, sizeof address) ? -1 : sent_at_once(s);
}
