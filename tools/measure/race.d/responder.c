/* A server for tools/measure/race that costs as little as it may: it answers each query, by UDP and
framed TCP, with one A record of a TTL of an hour.

   responder ADDR PORT [silent]

   silent: only probes (a.root-servers.net) are answered. It prints `ready` and runs until it is ended.
   The datagram `count` is answered by how many queries it has answered, as decimal digits. */
#define _GNU_SOURCE
#include <arpa/inet.h>
#include <errno.h>
#include <fcntl.h>
#include <netinet/tcp.h>
#include <stdio.h>
#include <stdlib.h>
#include <string.h>
#include <sys/epoll.h>
#include <sys/socket.h>
#include <unistd.h>

#define BATCH 32
#define MOST_FDS 4096
#define TAIL 16

static int is_silent;
static unsigned long long answered;
static const unsigned char record[TAIL] = {0xc0, 0x0c, 0, 1, 0, 1, 0, 0, 0x0e, 0x10, 0, 4, 192, 0, 2, 7};

struct stream {
    unsigned char *in, *out;
    size_t in_length, out_length;
};
static struct stream *streams[MOST_FDS];

static void fail(const char *what)
{
    fprintf(stderr, "responder: %s: %s\n", what, strerror(errno));
    exit(1);
}

/* Makes the query its answer; returns its length, 0 where there is none. There is room for TAIL octets behind it. */
static size_t answer(unsigned char *message, size_t length)
{
    size_t end = 12;
    if (length == 5 && !memcmp(message, "count", 5))
        return sprintf((char *)message, "%llu", answered);
    if (length < 17 || message[2] & 0x80)
        return 0;
    while (end < length && message[end])
        end += message[end] + 1u;
    end += 5;
    if (end > length)
        return 0;
    if (is_silent && memcmp(message + 12, "\001a\014root-servers", 15))
        return 0;
    message[2] = 0x80 | (message[2] & 0x79);
    message[3] = 0x80;
    memcpy(message + 4, "\0\1\0\1\0\0\0\0", 8);
    memcpy(message + end, record, TAIL);
    answered++;
    return end + TAIL;
}

static void run_datagrams(int fd)
{
    static unsigned char buffers[BATCH][4096 + TAIL];
    static struct sockaddr_storage from[BATCH];
    static struct iovec parts[BATCH], replies[BATCH];
    static struct mmsghdr in[BATCH], out[BATCH];
    for (;;) {
        for (int i = 0; i < BATCH; i++) {
            parts[i].iov_base = buffers[i];
            parts[i].iov_len = 4096;
            memset(&in[i], 0, sizeof in[i]);
            in[i].msg_hdr.msg_iov = &parts[i];
            in[i].msg_hdr.msg_iovlen = 1;
            in[i].msg_hdr.msg_name = &from[i];
            in[i].msg_hdr.msg_namelen = sizeof from[i];
        }
        int count = recvmmsg(fd, in, BATCH, MSG_DONTWAIT, NULL), sends = 0;
        if (count <= 0)
            return;
        for (int i = 0; i < count; i++) {
            size_t length = answer(buffers[i], in[i].msg_len);
            if (!length)
                continue;
            replies[sends].iov_base = buffers[i];
            replies[sends].iov_len = length;
            memset(&out[sends], 0, sizeof out[sends]);
            out[sends].msg_hdr.msg_iov = &replies[sends];
            out[sends].msg_hdr.msg_iovlen = 1;
            out[sends].msg_hdr.msg_name = &from[i];
            out[sends].msg_hdr.msg_namelen = in[i].msg_hdr.msg_namelen;
            sends++;
        }
        for (int done = 0; done < sends;) {
            int sent = sendmmsg(fd, out + done, sends - done, 0);
            done += sent > 0 ? sent : 1;
        }
        if (count < BATCH)
            return;
    }
}

#define ROOM (1 << 20)

static void close_stream(int fd)
{
    free(streams[fd]->in);
    free(streams[fd]->out);
    free(streams[fd]);
    streams[fd] = NULL;
    close(fd);
}

static int write_out(int fd, struct stream *it)
{
    size_t done = 0;
    while (done < it->out_length) {
        ssize_t sent = send(fd, it->out + done, it->out_length - done, MSG_NOSIGNAL | MSG_DONTWAIT);
        if (sent < 0) {
            if (errno == EAGAIN)
                break;
            return -1;
        }
        done += sent;
    }
    memmove(it->out, it->out + done, it->out_length - done);
    it->out_length -= done;
    return 0;
}

static void run_stream(int fd)
{
    struct stream *it = streams[fd];
    for (;;) {
        if (write_out(fd, it)) {
            close_stream(fd);
            return;
        }
        if (it->out_length > ROOM / 2)
            return;
        ssize_t count = recv(fd, it->in + it->in_length, 65536, MSG_DONTWAIT);
        if (count == 0 || (count < 0 && errno != EAGAIN)) {
            close_stream(fd);
            return;
        }
        if (count < 0)
            return;
        it->in_length += count;
        size_t place = 0;
        while (it->in_length - place >= 2) {
            size_t size = it->in[place] << 8 | it->in[place + 1];
            if (it->in_length - place - 2 < size)
                break;
            unsigned char *to = it->out + it->out_length + 2;
            if (size <= 4096) {
                memcpy(to, it->in + place + 2, size);
                size_t length = answer(to, size);
                if (length) {
                    to[-2] = length >> 8;
                    to[-1] = length & 255;
                    it->out_length += length + 2;
                }
            }
            place += size + 2;
        }
        memmove(it->in, it->in + place, it->in_length - place);
        it->in_length -= place;
    }
}

int main(int count, char **words)
{
    if (count < 3) {
        fprintf(stderr, "usage: responder ADDR PORT [silent]\n");
        return 2;
    }
    is_silent = count > 3;
    struct sockaddr_in at = {.sin_family = AF_INET, .sin_port = htons(atoi(words[2]))};
    if (inet_pton(AF_INET, words[1], &at.sin_addr) != 1)
        fail("address");
    int one = 1, room = 1 << 22;
    int datagrams = socket(AF_INET, SOCK_DGRAM, 0), listener = socket(AF_INET, SOCK_STREAM | SOCK_NONBLOCK, 0), poll = epoll_create1(0);
    setsockopt(datagrams, SOL_SOCKET, SO_RCVBUF, &room, sizeof room);
    setsockopt(listener, SOL_SOCKET, SO_REUSEADDR, &one, sizeof one);
    if (bind(datagrams, (void *)&at, sizeof at) || bind(listener, (void *)&at, sizeof at) || listen(listener, 512))
        fail("bind");
    struct epoll_event event = {.events = EPOLLIN, .data.fd = datagrams}, events[64];
    epoll_ctl(poll, EPOLL_CTL_ADD, datagrams, &event);
    event.data.fd = listener;
    epoll_ctl(poll, EPOLL_CTL_ADD, listener, &event);
    puts("ready");
    fflush(stdout);
    for (;;) {
        int ready = epoll_wait(poll, events, 64, -1);
        for (int i = 0; i < ready; i++) {
            int fd = events[i].data.fd;
            if (fd == datagrams) {
                run_datagrams(fd);
            } else if (fd == listener) {
                int client = accept4(fd, NULL, NULL, SOCK_NONBLOCK);
                if (client < 0)
                    continue;
                if (client >= MOST_FDS) {
                    close(client);
                    continue;
                }
                setsockopt(client, IPPROTO_TCP, TCP_NODELAY, &one, sizeof one);
                streams[client] = calloc(1, sizeof **streams);
                streams[client]->in = malloc(65536 * 3);
                streams[client]->out = malloc(ROOM * 8);
                event.events = EPOLLIN | EPOLLOUT | EPOLLET;
                event.data.fd = client;
                epoll_ctl(poll, EPOLL_CTL_ADD, client, &event);
                run_stream(client);
            } else if (streams[fd]) {
                run_stream(fd);
            }
        }
    }
}
