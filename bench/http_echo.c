/* A loop of read and write, which is what a machine allows a server: for each so many bytes that
   it reads it writes a reply of so many, all that are due in one write. It serves connections
   one after the other.
   usage: http_echo PORT REQUEST REPLY ENDS      bytes of a request, bytes of a reply, and 1
      where each reply ends its connection */
#include <arpa/inet.h>
#include <netinet/tcp.h>
#include <signal.h>
#include <stdio.h>
#include <stdlib.h>
#include <string.h>
#include <sys/socket.h>
#include <unistd.h>

enum { ROOM = 1 << 20, MOST = 64 };

static void serve(int stream, size_t request, size_t reply, const char *replies, char *room, int ends)
{
    size_t read_so_far = 0;
    for (;;) {
        ssize_t got = read(stream, room, ROOM);
        if (got <= 0)
            return;
        read_so_far += got;
        size_t due = read_so_far / request;
        read_so_far %= request;
        while (due) {
            size_t now = due < MOST ? due : MOST;
            if (write(stream, replies, now * reply) != (ssize_t)(now * reply))
                return;
            due -= now;
            if (ends) {
                shutdown(stream, SHUT_WR);
                while (read(stream, room, ROOM) > 0)
                    ;
                return;
            }
        }
    }
}

int main(int words, char **word)
{
    struct sockaddr_in at = {.sin_family = AF_INET, .sin_addr.s_addr = htonl(INADDR_LOOPBACK)};
    int one = 1, listener = socket(AF_INET, SOCK_STREAM, 0);
    if (words != 5)
        return 2;
    size_t request = atol(word[2]), reply = atol(word[3]);
    char *replies = malloc(MOST * reply), *room = malloc(ROOM), head[200];
    /* the length of the head is that of the digits of the body's length too */
    int length = snprintf(head, sizeof head, "HTTP/1.1 200 OK\r\nContent-Length: %05zu\r\nContent-Type: application/json\r\n\r\n", (size_t)0);
    if ((size_t)length > reply)
        return 2;
    snprintf(head, sizeof head, "HTTP/1.1 200 OK\r\nContent-Length: %05zu\r\nContent-Type: application/json\r\n\r\n", reply - length);
    memset(replies, 'x', MOST * reply);
    for (int it = 0; it < MOST; it++)
        memcpy(replies + it * reply, head, length);
    signal(SIGPIPE, SIG_IGN);
    at.sin_port = htons(atoi(word[1]));
    setsockopt(listener, SOL_SOCKET, SO_REUSEADDR, &one, sizeof one);
    if (bind(listener, (struct sockaddr *)&at, sizeof at) || listen(listener, 128)) {
        perror("listen");
        return 1;
    }
    printf("listening\n");
    fflush(stdout);
    for (;;) {
        int stream = accept(listener, NULL, NULL);
        if (stream < 0)
            continue;
        setsockopt(stream, IPPROTO_TCP, TCP_NODELAY, &one, sizeof one);
        serve(stream, request, reply, replies, room, atoi(word[4]));
        close(stream);
    }
}
