/* The client of tools/measure/race: it asks for A records by UDP, by framed TCP or by HTTP, and
tells what came and how soon.

   client udp|tcp|get|post ADDR PORT [-F FORMAT] [-k COUNT] [-f PERCENT] [-c SOCKETS] [-w WINDOW] [-r RATE] [-t SECONDS] [-n QUERIES] [-T MS] [-e SEED] [-a] [-C]

   -F  the names, with one %d for their number (h%d.hit.test); -k how many there are (1), drawn at random; -a each once, in order
   -f  of a hundred queries so many have a name that was never asked before (0)
   -c  sockets or connections (4); -w queries in flight in all (64), by HTTP one a connection at most; -r queries a second, at most 64 at once (0: as fast as the window goes)
   -t  seconds (3) or -n queries; -T a query is lost after so many milliseconds (1000); -e a seed for names and IDs
   -C  each query has an OPT with a fresh client cookie of 8 octets (RFC 7873)

   It prints one line: sent S answered A lost L seconds T p50 US p99 US rcodes NOERROR SERVFAIL
   REFUSED OTHER least US longest US. The least is the time of the answer that came soonest. */
#define _GNU_SOURCE
#include <arpa/inet.h>
#include <errno.h>
#include <netinet/tcp.h>
#include <poll.h>
#include <stdint.h>
#include <stdio.h>
#include <stdlib.h>
#include <string.h>
#include <sys/socket.h>
#include <time.h>
#include <unistd.h>

#define MOST_SOCKETS 64
#define ROOM (1 << 18)
#define MOST_BURST 64

struct lane {
    int fd, in_flight, is_closed;
    uint16_t next;
    uint64_t sent_at[65536]; /* by ID; 0: not in flight */
    uint16_t order[65536];   /* IDs in the order in which they were sent */
    unsigned head, tail;
    unsigned char *in, *out;
    size_t in_length, out_length;
};

static struct lane *lanes[MOST_SOCKETS];
static int is_tcp, is_get, is_post, sockets = 4, window = 64, fresh_percent, in_order, has_cookie;
static unsigned known = 1;
static const char *format = "h%d.hit.test";
static uint64_t sent, answered, lost, rcodes[16], state, fresh, known_next;
static uint32_t *times;
static size_t times_room;
static uint64_t timeout_ns = 1000000000u;

static uint64_t now(void)
{
    struct timespec it;
    clock_gettime(CLOCK_MONOTONIC, &it);
    return it.tv_sec * 1000000000ull + it.tv_nsec;
}

static uint64_t draw(void)
{
    state += 0x9e3779b97f4a7c15ull;
    uint64_t z = state;
    z = (z ^ (z >> 30)) * 0xbf58476d1ce4e5b9ull;
    z = (z ^ (z >> 27)) * 0x94d049bb133111ebull;
    return z ^ (z >> 31);
}

static size_t make_query(unsigned char *to, uint16_t ident)
{
    char name[256];
    if (fresh_percent && draw() % 100 < (unsigned)fresh_percent) {
        /* counted, and mixed so that they come in no order */
        uint64_t mixed = fresh++ * 0x9e3779b97f4a7c15ull ^ known_next;
        snprintf(name, sizeof name, "f%016llx.fresh.test", (unsigned long long)mixed);
    } else {
        unsigned number = in_order ? (unsigned)(sent % known) : (unsigned)(draw() % known);
        snprintf(name, sizeof name, format, number);
    }
    memcpy(to, "\0\0\1\0\0\1\0\0\0\0\0\0", 12);
    to[0] = ident >> 8;
    to[1] = ident & 255;
    size_t place = 12;
    for (char *label = name; *label;) {
        size_t length = strcspn(label, ".");
        to[place++] = length;
        memcpy(to + place, label, length);
        place += length;
        label += length + (label[length] == '.');
    }
    memcpy(to + place, "\0\0\1\0\1", 5);
    place += 5;
    if (has_cookie) {
        uint64_t cookie = draw();
        to[11] = 1;
        memcpy(to + place, "\0\0\x29\x04\xd0\0\0\0\0\0\x0c\0\x0a\0\x08", 15);
        memcpy(to + place + 15, &cookie, 8);
        place += 23;
    }
    return place;
}

/* The request of a query, by RFC 8484. */
static size_t make_request(unsigned char *to, const unsigned char *query, size_t length)
{
    static const char symbols[] = "ABCDEFGHIJKLMNOPQRSTUVWXYZabcdefghijklmnopqrstuvwxyz0123456789-_";
    if (is_post) {
        int head = sprintf((char *)to, "POST /dns-query HTTP/1.1\r\nhost: race\r\ncontent-type: application/dns-message\r\ncontent-length: %zu\r\n\r\n", length);
        memcpy(to + head, query, length);
        return head + length;
    }
    size_t place = sprintf((char *)to, "GET /dns-query?dns=");
    for (size_t at = 0; at < length; at += 3) {
        size_t left = length - at < 3 ? length - at : 3;
        unsigned bits = query[at] << 16 | (left > 1 ? query[at + 1] << 8 : 0) | (left > 2 ? query[at + 2] : 0);
        for (size_t symbol = 0; symbol <= left; symbol++)
            to[place++] = symbols[bits >> (18 - 6 * symbol) & 63];
    }
    return place + sprintf((char *)to + place, " HTTP/1.1\r\nhost: race\r\naccept: application/dns-message\r\n\r\n");
}

static void take(struct lane *lane, const unsigned char *message, size_t length, uint64_t moment)
{
    if (length < 12)
        return;
    uint16_t ident = message[0] << 8 | message[1];
    if (!lane->sent_at[ident])
        return;
    if (answered == times_room) {
        times_room = times_room ? times_room * 2 : 1 << 20;
        times = realloc(times, times_room * sizeof *times);
    }
    times[answered++] = (moment - lane->sent_at[ident]) / 100;
    rcodes[message[3] & 15]++;
    lane->sent_at[ident] = 0;
    lane->in_flight--;
}

static void give_up(struct lane *lane, uint64_t moment)
{
    while (lane->head != lane->tail) {
        uint16_t ident = lane->order[lane->head & 65535];
        if (lane->sent_at[ident]) {
            if (lane->sent_at[ident] + timeout_ns > moment)
                return;
            lane->sent_at[ident] = 0;
            lane->in_flight--;
            lost++;
        }
        lane->head++;
    }
}

static int send_one(struct lane *lane)
{
    unsigned char message[512];
    int is_http = is_get || is_post;
    if (lane->is_closed || lane->tail - lane->head >= 65000 || (is_http && lane->in_flight))
        return 0;
    while (lane->sent_at[lane->next])
        lane->next++;
    size_t length = make_query(message + 2, lane->next);
    uint64_t moment = now();
    if (is_http) {
        lane->out_length = make_request(lane->out, message + 2, length);
    } else if (is_tcp) {
        if (lane->out_length + length + 2 > ROOM)
            return 0;
        message[0] = length >> 8;
        message[1] = length & 255;
        memcpy(lane->out + lane->out_length, message, length + 2);
        lane->out_length += length + 2;
    } else if (send(lane->fd, message + 2, length, MSG_DONTWAIT) < 0 && errno != ECONNREFUSED) {
        return 0;
    }
    lane->sent_at[lane->next] = moment;
    lane->order[lane->tail++ & 65535] = lane->next++;
    lane->in_flight++;
    sent++;
    return 1;
}

static void write_out(struct lane *lane)
{
    if (!lane->out_length || lane->is_closed)
        return;
    ssize_t count = send(lane->fd, lane->out, lane->out_length, MSG_DONTWAIT | MSG_NOSIGNAL);
    if (count < 0) {
        if (errno != EAGAIN)
            lane->is_closed = 1;
        return;
    }
    memmove(lane->out, lane->out + count, lane->out_length - count);
    lane->out_length -= count;
}

/* How many octets the first response of these has, where it is whole; its body is taken. */
static size_t take_response(struct lane *lane, unsigned char *from, size_t length, uint64_t moment)
{
    unsigned char *body = memmem(from, length, "\r\n\r\n", 4);
    if (!body)
        return 0;
    size_t size = 0;
    body += 4;
    for (unsigned char *line = from; line < body; line = (unsigned char *)memchr(line, '\n', body - line) + 1)
        if (!strncasecmp((char *)line, "content-length:", 15))
            size = strtoul((char *)line + 15, NULL, 10);
    if (length - (body - from) < size)
        return 0;
    take(lane, body, size, moment);
    return body - from + size;
}

static void read_in(struct lane *lane)
{
    for (int turn = 0; turn < 64 && !lane->is_closed; turn++) {
        ssize_t count = recv(lane->fd, lane->in + lane->in_length, is_tcp ? ROOM - lane->in_length : 65536, MSG_DONTWAIT);
        if (count < 0 || (is_tcp && count == 0)) {
            if (is_tcp && (count == 0 || errno != EAGAIN))
                lane->is_closed = 1;
            return;
        }
        uint64_t moment = now();
        if (!is_tcp) {
            take(lane, lane->in, count, moment);
            continue;
        }
        lane->in_length += count;
        size_t place = 0;
        if (is_get || is_post) {
            for (size_t size; (size = take_response(lane, lane->in + place, lane->in_length - place, moment)) != 0;)
                place += size;
        } else while (lane->in_length - place >= 2) {
            size_t size = lane->in[place] << 8 | lane->in[place + 1];
            if (lane->in_length - place - 2 < size)
                break;
            take(lane, lane->in + place + 2, size, moment);
            place += size + 2;
        }
        memmove(lane->in, lane->in + place, lane->in_length - place);
        lane->in_length -= place;
    }
}

static int ascending(const void *a, const void *b)
{
    uint32_t x = *(const uint32_t *)a, y = *(const uint32_t *)b;
    return (x > y) - (x < y);
}

int main(int count, char **words)
{
    double seconds = 3, rate = 0;
    uint64_t most = 0, seed = 1;
    if (count < 4) {
        fprintf(stderr, "usage: client udp|tcp|get|post ADDR PORT [options]\n");
        return 2;
    }
    is_get = !strcmp(words[1], "get");
    is_post = !strcmp(words[1], "post");
    is_tcp = !strcmp(words[1], "tcp") || is_get || is_post;
    struct sockaddr_in at = {.sin_family = AF_INET, .sin_port = htons(atoi(words[3]))};
    inet_pton(AF_INET, words[2], &at.sin_addr);
    optind = 4;
    for (int option; (option = getopt(count, words, "F:k:f:c:w:r:t:n:T:e:aC")) != -1;) {
        switch (option) {
        case 'F': format = optarg; break;
        case 'k': known = atoi(optarg); break;
        case 'f': fresh_percent = atoi(optarg); break;
        case 'c': sockets = atoi(optarg); break;
        case 'w': window = atoi(optarg); break;
        case 'r': rate = atof(optarg); break;
        case 't': seconds = atof(optarg); break;
        case 'n': most = strtoull(optarg, NULL, 10); break;
        case 'T': timeout_ns = strtoull(optarg, NULL, 10) * 1000000u; break;
        case 'e': seed = strtoull(optarg, NULL, 10); break;
        case 'a': in_order = 1; break;
        case 'C': has_cookie = 1; break;
        default: return 2;
        }
    }
    state = seed * 0x2545f4914f6cdd1dull;
    known_next = draw();
    if (sockets > MOST_SOCKETS)
        sockets = MOST_SOCKETS;
    if (sockets > window && !(rate > 0))
        sockets = window;
    struct pollfd polls[MOST_SOCKETS];
    for (int i = 0; i < sockets; i++) {
        struct lane *lane = lanes[i] = calloc(1, sizeof *lane);
        int one = 1, room = 1 << 22;
        lane->fd = socket(AF_INET, is_tcp ? SOCK_STREAM : SOCK_DGRAM, 0);
        lane->in = malloc(ROOM + 65536);
        lane->out = malloc(ROOM);
        lane->next = draw();
        if (!is_tcp)
            setsockopt(lane->fd, SOL_SOCKET, SO_RCVBUF, &room, sizeof room);
        if (connect(lane->fd, (void *)&at, sizeof at)) {
            fprintf(stderr, "client: connect: %s\n", strerror(errno));
            return 1;
        }
        if (is_tcp)
            setsockopt(lane->fd, IPPROTO_TCP, TCP_NODELAY, &one, sizeof one);
        polls[i].fd = lane->fd;
    }
    uint64_t begin = now(), end = begin + (uint64_t)(seconds * 1e9), drained = 0, paced = begin, skipped_to = 0;
    int turn_of = 0;
    for (;;) {
        uint64_t moment = now();
        int is_over = most ? sent >= most : moment >= end, in_flight = 0, closed = 0;
        for (int i = 0; i < sockets; i++) {
            give_up(lanes[i], moment);
            in_flight += lanes[i]->in_flight;
            closed += lanes[i]->is_closed;
        }
        if (is_over && !drained)
            drained = moment;
        if ((is_over && !in_flight) || closed == sockets)
            break;
        if (!is_over) {
            uint64_t due = rate > 0 ? (uint64_t)((moment - paced) / 1e9 * rate) : UINT64_MAX;
            if (rate > 0 && due > sent - skipped_to + MOST_BURST) { /* it was held up: what it missed is not made up for */
                paced = moment - (uint64_t)(MOST_BURST / rate * 1e9);
                skipped_to = sent;
                due = MOST_BURST;
            }
            due = rate > 0 ? due + skipped_to : due;
            int failures = 0;
            while (sent < due && (rate > 0 || in_flight < window) && !(most && sent >= most) && failures < sockets) {
                struct lane *lane = lanes[turn_of++ % sockets];
                if (!(rate > 0) && lane->in_flight >= (window + sockets - 1) / sockets) {
                    failures++;
                    continue;
                }
                if (send_one(lane)) {
                    in_flight++;
                    failures = 0;
                } else {
                    failures++;
                }
            }
        }
        int waits = rate > 0 ? rate < 20000 : 20;
        for (int i = 0; i < sockets; i++) {
            if (is_tcp)
                write_out(lanes[i]);
            polls[i].events = POLLIN | (lanes[i]->out_length ? POLLOUT : 0);
            polls[i].revents = 0;
            if (lanes[i]->is_closed)
                polls[i].fd = -1;
        }
        if (poll(polls, sockets, waits) > 0)
            for (int i = 0; i < sockets; i++)
                if (polls[i].revents)
                    read_in(lanes[i]);
    }
    for (int i = 0; i < sockets; i++)
        lost += lanes[i]->in_flight;
    qsort(times, answered, sizeof *times, ascending);
    double took = ((drained ? drained : now()) - begin) / 1e9;
    uint64_t others = answered - rcodes[0] - rcodes[2] - rcodes[5];
    printf("sent %llu answered %llu lost %llu seconds %.4f", (unsigned long long)sent,
           (unsigned long long)answered, (unsigned long long)lost, took);
    printf(" p50 %.1f p99 %.1f", answered ? times[answered / 2] / 10.0 : 0,
           answered ? times[answered * 99 / 100] / 10.0 : 0);
    printf(" rcodes %llu %llu %llu %llu least %.1f longest %.1f\n", (unsigned long long)rcodes[0],
           (unsigned long long)rcodes[2], (unsigned long long)rcodes[5], (unsigned long long)others,
           answered ? times[0] / 10.0 : 0, answered ? times[answered - 1] / 10.0 : 0);
    return 0;
}
