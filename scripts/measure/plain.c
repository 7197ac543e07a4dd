/* The least that a site which sells pages has to do, for `overall.py`: it takes one connection after another, and for each head that
 * ends with an empty line writes an entry behind a closed gate, syncs, opens the gate, syncs, and sends a reply of fixed bytes. It
 * checks nothing and keeps nothing else.    plain FILE PORT ENTRY REPLY: sizes in bytes */
#include <arpa/inet.h>
#include <fcntl.h>
#include <netinet/tcp.h>
#include <stdlib.h>
#include <string.h>
#include <sys/socket.h>
#include <unistd.h>

static char heads[1 << 16], entry[1 << 12], reply[1 << 14];

static void add(int book, off_t *gate, size_t size)
{
    char open = 1;
    pwrite(book, entry, size, *gate + 1);
    fdatasync(book);
    pwrite(book, &open, 1, *gate);
    fdatasync(book);
    *gate += size;
}

static void serve(int link, int book, off_t *gate, size_t size, size_t length)
{
    size_t held = 0;
    for (;;) {
        char *end = memmem(heads, held, "\r\n\r\n", 4);
        if (!end) {
            ssize_t more = read(link, heads + held, sizeof heads - held);
            if (more <= 0)
                return;
            held += more;
            continue;
        }
        add(book, gate, size);
        if (write(link, reply, length) < 0)
            return;
        held -= end + 4 - heads;
        memmove(heads, end + 4, held);
    }
}

int main(int count, char **words)
{
    if (count != 5)
        return 2;
    int book = open(words[1], O_RDWR | O_CREAT, 0600), door = socket(AF_INET, SOCK_STREAM, 0), on = 1;
    struct sockaddr_in at = {.sin_family = AF_INET, .sin_port = htons(atoi(words[2])), .sin_addr.s_addr = htonl(INADDR_LOOPBACK)};
    size_t size = atoi(words[3]), length = atoi(words[4]), told;
    off_t gate = 0;
    setsockopt(door, SOL_SOCKET, SO_REUSEADDR, &on, sizeof on);
    if (book < 0 || bind(door, (struct sockaddr *)&at, sizeof at) || listen(door, 1000))
        return 6;
    memset(reply, ' ', sizeof reply);
    told = strlen(strcpy(reply, "HTTP/1.1 200 OK\r\nX: "));
    reply[told] = ' ';
    memcpy(reply + length - 23, "\r\nContent-Length: 0\r\n\r\n", 23);
    for (;;) {
        int link = accept(door, 0, 0);
        setsockopt(link, IPPROTO_TCP, TCP_NODELAY, &on, sizeof on);
        serve(link, book, &gate, size, length);
        close(link);
    }
}
