/* The least work that a server of the same bytes can do: an epoll loop that receives until a blank
 * line and sends a reply that was made before.
 *
 *     limit PORT PROCESSES FILE..     a request for /N gets the bytes of the Nth FILE, from 0
 *
 * The processes accept by turns, so each has its share of the connections, as each worker of
 * tzdistd has. One process with all of them needs fewer waits, but leaves the others idle.
 *
 * bench/serve.py builds it with `cc -O2` and measures it next to tzdistd and nginx.
 */
#define _GNU_SOURCE
#include <arpa/inet.h>
#include <errno.h>
#include <fcntl.h>
#include <netinet/tcp.h>
#include <signal.h>
#include <stdio.h>
#include <stdlib.h>
#include <string.h>
#include <sys/epoll.h>
#include <sys/mman.h>
#include <sys/prctl.h>
#include <sys/socket.h>
#include <sys/stat.h>
#include <sys/wait.h>
#include <unistd.h>

struct reply { char *bytes; size_t size; } *replies;
struct peer { int socket; struct reply *reply; size_t held, sent; char head[8192]; };
int count, processes;
volatile int *turns; /* how many connections all processes have accepted */

/* Sends what is due and receives once. The result is 0 if the peer has ended. */
static int turn(struct peer *peer) {
    for (int more = 1;;) {
        for (; peer->reply; peer->reply = peer->sent < peer->reply->size ? peer->reply : NULL) {
            struct reply *due = peer->reply;
            size_t rest = due->size - peer->sent;
            ssize_t sent = send(peer->socket, due->bytes + peer->sent, rest, MSG_NOSIGNAL);
            if (sent < 0) return errno == EAGAIN;
            peer->sent += sent;
        }
        char *end = peer->held ? memmem(peer->head, peer->held, "\r\n\r\n", 4) : NULL;
        if (end) {
            peer->reply = &replies[atoi(peer->head + 5) % count];
            peer->sent = 0;
            peer->held -= end + 4 - peer->head;
            memmove(peer->head, end + 4, peer->held);
        } else if (more) {
            size_t room = sizeof peer->head - peer->held;
            ssize_t came = recv(peer->socket, peer->head + peer->held, room, 0);
            if (came <= 0) return came < 0 && errno == EAGAIN;
            peer->held += came;
            more = (size_t)came == room;
        } else return 1;
    }
}

static void serve(int listener, int own) {
    int queue = epoll_create1(0), yes = 1;
    struct epoll_event event = {.events = EPOLLIN}, events[64];
    epoll_ctl(queue, EPOLL_CTL_ADD, listener, &event);
    for (;;) {
        int ready = epoll_wait(queue, events, 64, -1);
        for (int at = 0; at < ready; at++) {
            struct peer *peer = events[at].data.ptr;
            if (peer && !turn(peer)) {
                close(peer->socket);
                free(peer);
            } else if (!peer && *turns % processes == own) {
                int socket = accept4(listener, NULL, NULL, SOCK_NONBLOCK);
                if (socket < 0 || !(peer = calloc(1, sizeof *peer))) continue;
                ++*turns;
                peer->socket = socket;
                setsockopt(socket, IPPROTO_TCP, TCP_NODELAY, &yes, sizeof yes);
                event.events = EPOLLIN | EPOLLOUT | EPOLLET;
                event.data.ptr = peer;
                epoll_ctl(queue, EPOLL_CTL_ADD, socket, &event);
            }
        }
    }
}

int main(int words, char **word) {
    if (words < 4) return fputs("usage: limit PORT PROCESSES FILE..\n", stderr), 1;
    replies = calloc(count = words - 3, sizeof *replies);
    for (int at = 0; at < count; at++) {
        struct stat about;
        int file = open(word[at + 3], O_RDONLY);
        if (file < 0 || fstat(file, &about)) return perror(word[at + 3]), 1;
        replies[at] = (struct reply){malloc(about.st_size), about.st_size};
        ssize_t came = read(file, replies[at].bytes, about.st_size);
        if (came != about.st_size) return perror(word[at + 3]), 1;
    }
    struct sockaddr_in at = {.sin_family = AF_INET, .sin_port = htons(atoi(word[1]))};
    int listener = socket(AF_INET, SOCK_STREAM | SOCK_NONBLOCK, 0), yes = 1;
    inet_pton(AF_INET, "127.0.0.1", &at.sin_addr);
    setsockopt(listener, SOL_SOCKET, SO_REUSEADDR, &yes, sizeof yes);
    if (bind(listener, (struct sockaddr *)&at, sizeof at)) return perror("bind"), 1;
    if (listen(listener, 4096)) return perror("listen"), 1;
    turns = mmap(NULL, sizeof *turns, PROT_READ | PROT_WRITE, MAP_SHARED | MAP_ANONYMOUS, -1, 0);
    if (turns == MAP_FAILED) return perror("mmap"), 1;
    processes = atoi(word[2]);
    for (int own = 0; own < processes; own++)
        if (!fork()) prctl(PR_SET_PDEATHSIG, SIGKILL), serve(listener, own);
    while (wait(NULL) > 0) {}
    return 0;
}
