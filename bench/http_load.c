#define _GNU_SOURCE
/* Sends messages to a server on the loopback and reads its replies.
   usage: http_load PORT AHEAD ALIVE FILE
   FILE has messages, each behind a line with its length. AHEAD is how many are sent before the
   reply to the first is read; 0 is one message a connection, each until the server ends it. A
   connection has at most ALIVE messages. Prints the seconds, the messages, the bytes of their
   replies, and how many statuses don't begin with 2. */
#include <arpa/inet.h>
#include <netinet/tcp.h>
#include <stdio.h>
#include <stdlib.h>
#include <string.h>
#include <sys/socket.h>
#include <time.h>
#include <unistd.h>

enum { ROOM = 16 << 20 };
static char *given, *kept;
static size_t *starts, count, filled;
static long long bytes, refused;

static void fail(const char *why)
{
    perror(why);
    exit(1);
}

/* the messages one behind the other in `given`, and where each starts */
static void load(const char *path)
{
    size_t length, room = 0, used = 0;
    FILE *file = fopen(path, "rb");
    if (!file)
        fail(path);
    while (fscanf(file, "%zu", &length) == 1) {
        fgetc(file);
        if (used + length > room)
            given = realloc(given, room = 2 * (room + length));
        starts = realloc(starts, (count + 2) * sizeof *starts);
        starts[count++] = used;
        if (fread(given + used, 1, length, file) != length)
            fail("a message is cut");
        starts[count] = used += length;
    }
    fclose(file);
}

static int connected(int port)
{
    struct sockaddr_in to = {.sin_family = AF_INET, .sin_port = htons(port), .sin_addr.s_addr = htonl(INADDR_LOOPBACK)};
    int one = 1, stream = socket(AF_INET, SOCK_STREAM, 0);
    if (stream < 0 || connect(stream, (struct sockaddr *)&to, sizeof to) || setsockopt(stream, IPPROTO_TCP, TCP_NODELAY, &one, sizeof one))
        fail("connect");
    filled = 0;
    return stream;
}

static void send_all(int stream, size_t from, size_t to)
{
    while (from < to) {
        ssize_t sent = write(stream, given + from, to - from);
        if (sent <= 0)
            fail("write");
        from += sent;
    }
}

/* reads once, and counts the replies that are whole then; -1 at the end of the connection */
static long replies(int stream)
{
    ssize_t got = read(stream, kept + filled, ROOM - filled);
    size_t used = 0;
    long whole = 0;
    if (got < 0)
        fail("read");
    if (got == 0)
        return -1;
    filled += got;
    for (;;) {
        char *head = kept + used, *end = memmem(head, filled - used, "\r\n\r\n", 4), *size;
        size_t length;
        if (!end)
            break;
        size = memmem(head, end - head, "Content-Length: ", 16);
        if (!size)
            fail("a reply has no length");
        length = end + 4 - head + strtoul(size + 16, NULL, 10);
        if (length > filled - used)
            break;
        refused += head[9] != '2';
        bytes += length;
        used += length;
        whole++;
    }
    memmove(kept, kept + used, filled -= used);
    return whole;
}

/* the messages first .. last over one connection, so many ahead */
static void over_one(int port, size_t first, size_t last, size_t ahead)
{
    int stream = connected(port);
    size_t sent = first, answered = first;
    while (answered < last) {
        size_t to = answered + ahead < last ? answered + ahead : last;
        if (to > sent)
            send_all(stream, starts[sent], starts[to]);
        sent = to;
        long whole = replies(stream);
        if (whole < 0)
            fail("the server ends the connection");
        answered += whole;
    }
    close(stream);
}

static void one_each(int port)
{
    for (size_t it = 0; it < count; it++) {
        int stream = connected(port);
        long found = 0, whole;
        send_all(stream, starts[it], starts[it + 1]);
        while ((whole = replies(stream)) >= 0)
            found += whole;
        if (found != 1)
            fail("a connection without a reply");
        close(stream);
    }
}

int main(int words, char **word)
{
    struct timespec start, end;
    if (words != 5)
        return 2;
    int port = atoi(word[1]);
    size_t ahead = atol(word[2]), alive = atol(word[3]);
    load(word[4]);
    kept = malloc(ROOM);
    clock_gettime(CLOCK_MONOTONIC, &start);
    if (ahead == 0)
        one_each(port);
    for (size_t first = 0; ahead && first < count; first += alive)
        over_one(port, first, first + alive < count ? first + alive : count, ahead);
    clock_gettime(CLOCK_MONOTONIC, &end);
    printf("%.9f %zu %lld %lld\n", end.tv_sec - start.tv_sec + (end.tv_nsec - start.tv_nsec) / 1e9, count, bytes, refused);
    return 0;
}
