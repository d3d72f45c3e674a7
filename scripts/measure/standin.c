/* Stands in for `accessd` where its speed is measured: makes the same calls of the system for an exchange of DHCPv4, in the same
   order and with as many bytes, and does no DHCP. So what `accessd` takes beside it is what its own code takes.
       standin CONFIG --disk FILE --turns N [--format] [--port P] [--batch B]
   It takes the arguments of `accessd`. CONFIG is one that scripts/lib/configuration writes for 1 to 16 circuits behind at most as many
   relays: only the numbers of its circuits and relays are read. FILE is always formatted. Ends after N turns. Nothing is checked
   that comes in, and every client gets the address of its number.

   A turn tries sockets, and waits for none: the circuits', the server's two, the relays', each where the system has told of it, or
   something was sent to it, since it was last found empty.
   A frame goes from its circuit to the relay, which sends it on to the server with an option more; the server's answer goes back to
   the relay, and from there to the client's port of the circuit, after one byte. A REQUEST is a save: three writes to FILE, each
   with a sync, before the answer leaves (docs/FORMATS.md, "The disk"). With --batch a turn takes up to B datagrams at the server,
   whose saves share the three syncs. */
#define _GNU_SOURCE
#include <arpa/inet.h>
#include <errno.h>
#include <fcntl.h>
#include <netinet/in.h>
#include <stdbool.h>
#include <stdint.h>
#include <stdio.h>
#include <stdlib.h>
#include <string.h>
#include <sys/epoll.h>
#include <sys/file.h>
#include <sys/ioctl.h>
#include <sys/socket.h>
#include <time.h>
#include <unistd.h>

enum {
    MOST_CIRCUITS = 16,
    /* each circuit has a socket for DHCPv4 and one for DHCPv6 */
    CIRCUIT_SOCKETS = 2 * MOST_CIRCUITS,
    /* the numbers of the server's sockets, and of the first relay's */
    SERVER4 = CIRCUIT_SOCKETS,
    SERVER6,
    RELAYS,
    MOST_SOCKETS = RELAYS + MOST_CIRCUITS,
    PORTS = 4,
    BUFFER = 1281,
    /* the addresses of scripts/lib/configuration */
    LISTEN4 = 6767,
    LISTEN6 = 6547,
    FIRST_RELAY = 6801,
    FIRST_ADDRESS = 10,
    /* where a DHCPv4 message has what, and its sizes */
    HOPS = 3,
    YIADDR = 16,
    GIADDR = 24,
    CIRCUIT = GIADDR + 2,
    CLIENT = 33,
    KIND = 242,
    SERVER_ID = 245,
    SHORTEST = 244,
    REPLY = 300,
    DISCOVER = 1,
    OFFER = 2,
    ACK = 5,
    /* the file */
    REGION = 32768,
    FORMAT_AT = 8192,
    HALVES_AT = 16384,
    SLOTS = 16,
    HALF = 256,
    MOST_BATCH = 16,
};

/* A datagram at the server: the circuit and the slot of its client, and how often that slot was saved before, if it is a REQUEST. */
struct part {
    unsigned char in[BUFFER];
    struct sockaddr_in from;
    int index, slot;
    bool asks;
    unsigned before;
};

struct circuit {
    int socket4, socket6;
    struct sockaddr_in client;
    /* how often each slot was saved */
    unsigned saves[SLOTS];
};

struct standin {
    int circuit_count, relay_count, file, watched, batch;
    int listen4, listen6;
    int relays[MOST_CIRCUITS];
    struct sockaddr_in server_address;
    struct circuit circuits[MOST_CIRCUITS];
    /* which sockets may have a datagram */
    bool ready[MOST_SOCKETS];
    /* the datagram that came in, and what is made of it */
    unsigned char in[BUFFER], out[BUFFER + 64];
    struct part parts[MOST_BATCH];
};

struct words {
    const char *config, *disk;
    long turns;
    int port, batch;
};

static void fail(const char *what) {
    fprintf(stderr, "%s: %s\n", what, strerror(errno));
    exit(1);
}

static struct sockaddr_in local(int port) {
    struct sockaddr_in address = {.sin_family = AF_INET, .sin_port = htons((uint16_t)port)};
    address.sin_addr.s_addr = htonl(INADDR_LOOPBACK);
    return address;
}

/* A socket that never waits. The system tells of it by this number when a datagram arrives. */
static int bound(struct standin *all, int port, uint32_t number) {
    struct sockaddr_in address = local(port);
    struct epoll_event event = {.events = EPOLLIN | EPOLLRDHUP | EPOLLET, .data.u32 = number};
    int on = 1, end = socket(AF_INET, SOCK_DGRAM | SOCK_CLOEXEC, 0);
    if (end < 0 || bind(end, (struct sockaddr *)&address, sizeof address) != 0 || ioctl(end, FIONBIO, &on) != 0
        || epoll_ctl(all->watched, EPOLL_CTL_ADD, end, &event) != 0) {
        fail("a socket");
    }
    return end;
}

static void bind_all(struct standin *all, int port) {
    all->watched = epoll_create1(EPOLL_CLOEXEC);
    for (int index = 0; index < all->circuit_count; index++) {
        struct circuit *circuit = &all->circuits[index];
        int first = port + PORTS * index;
        circuit->socket4 = bound(all, first, 2 * (uint32_t)index);
        circuit->socket6 = bound(all, first + 1, 2 * (uint32_t)index + 1);
        circuit->client = local(first + 2);
    }
    all->listen4 = bound(all, LISTEN4, SERVER4);
    all->listen6 = bound(all, LISTEN6, SERVER6);
    for (int index = 0; index < all->relay_count; index++) {
        all->relays[index] = bound(all, FIRST_RELAY + index, RELAYS + (uint32_t)index);
    }
    all->server_address = local(LISTEN4);
}

static void write_at(int file, off_t at, const void *bytes, size_t length) {
    if (pwrite(file, bytes, length, at) != (ssize_t)length) {
        fail("a write");
    }
}

static void sync_data(int file) {
    if (fdatasync(file) != 0) {
        fail("a sync");
    }
}

/* The calls by which `accessd` makes a file and formats its regions, but for the folder's sync. */
static int formatted(const char *path, int regions) {
    static const unsigned char zeros[REGION], format = 2;
    int file = open(path, O_RDWR | O_CREAT | O_NOCTTY | O_CLOEXEC, 0666);
    if (file < 0 || flock(file, LOCK_EX | LOCK_NB) != 0 || ftruncate(file, (off_t)regions * REGION) != 0 || fsync(file) != 0) {
        fail(path);
    }
    for (off_t region = 0; region < regions; region++) {
        write_at(file, region * REGION, zeros, sizeof zeros);
        sync_data(file);
        write_at(file, region * REGION + FORMAT_AT, &format, 1);
        sync_data(file);
    }
    return file;
}

/* One of the three writes to the half of a slot that does not count: closes its gate where that is open, fills it, opens the gate.
   After the formatting the first half counts, and the other is closed. */
static void write_step(const struct standin *all, const struct part *part, int step) {
    static const unsigned char closed = 0, open_gate = 0xa5;
    unsigned char half[HALF];
    int other = part->before % 2 == 0;
    off_t gate = (off_t)part->index * REGION + HALVES_AT + (2 * part->slot + other) * HALF;
    if (step == 0 && part->before > 0) {
        write_at(all->file, gate, &closed, 1);
    } else if (step == 1) {
        memset(half, (int)part->before, sizeof half);
        write_at(all->file, gate + 1, half + 1, HALF - 1);
    } else if (step == 2) {
        write_at(all->file, gate, &open_gate, 1);
    }
}

/* Saves what the REQUESTs of a batch ask for, if there are any. */
static void save(struct standin *all, int count) {
    int saves = 0;
    for (int at = 0; at < count; at++) {
        struct part *part = &all->parts[at];
        if (!part->asks) {
            part->before = all->circuits[part->index].saves[part->slot]++;
            saves++;
        }
    }
    for (int step = 0; saves > 0 && step < 3; step++) {
        for (int at = 0; at < count; at++) {
            if (!all->parts[at].asks) {
                write_step(all, &all->parts[at], step);
            }
        }
        sync_data(all->file);
    }
}

/* How many bytes came in, or 0 where nothing waits or what came is too short. */
static size_t taken(int end, unsigned char *in, struct sockaddr_in *from) {
    struct sockaddr_storage address;
    socklen_t length = sizeof address;
    ssize_t count = recvfrom(end, in, BUFFER, 0, (struct sockaddr *)&address, &length);
    if (count < SHORTEST) {
        return 0;
    }
    memcpy(from, &address, sizeof *from);
    return (size_t)count;
}

/* Asks the system where datagrams arrived. */
static void look(struct standin *all) {
    struct epoll_event events[MOST_SOCKETS];
    int count = epoll_wait(all->watched, events, MOST_SOCKETS, 0);
    for (int index = 0; index < count; index++) {
        all->ready[events[index].data.u32] = true;
    }
}

/* The same, if the socket of this number may have a datagram. Nobody sends one that is too short. */
static size_t taken_if_ready(struct standin *all, int end, int number, unsigned char *in, struct sockaddr_in *from) {
    size_t length = all->ready[number] ? taken(end, in, from) : 0;
    if (length == 0) {
        all->ready[number] = false;
    }
    return length;
}

/* A datagram that the system does not accept is lost, as with `accessd`. */
static void send_on(int end, const unsigned char *bytes, size_t length, const struct sockaddr_in *to) {
    (void)!sendto(end, bytes, length, MSG_NOSIGNAL, (const struct sockaddr *)to, sizeof *to);
}

/* The frame with one hop more, the circuit's gateway, and an option as long as the one that names the circuit. */
static size_t relayed_up(struct standin *all, size_t length, int index) {
    unsigned char *out = all->out;
    unsigned char option[] = {82, 11, 1, 3, 'c', '1', (unsigned char)('0' + index % 10), 11, 4, 10, 0, (unsigned char)index, 1};
    /* the number of a circuit has one digit or two */
    size_t added = index < 10 ? sizeof option - 1 : sizeof option;
    memcpy(out, all->in, length - 1);
    out[HOPS] = 1;
    memcpy(out + GIADDR, (unsigned char[]){10, 0, (unsigned char)index, 1}, 4);
    memcpy(out + length - 1, option, added);
    out[length - 1 + added] = 255;
    return length + added;
}

static void take_frame(struct standin *all, int index) {
    struct sockaddr_in from;
    size_t length = taken_if_ready(all, all->circuits[index].socket4, 2 * index, all->in, &from);
    if (length > 0) {
        size_t made = relayed_up(all, length, index);
        send_on(all->relays[index % all->relay_count], all->out, made, &all->server_address);
        all->ready[SERVER4] = true;
    }
    /* no client of DHCPv6 sends */
    (void)taken_if_ready(all, all->circuits[index].socket6, 2 * index + 1, all->in, &from);
}

/* A reply that has what a client reads in it: its number, its address, the server's, and the kind. */
static void make_reply(struct standin *all, const struct part *part) {
    unsigned char *out = all->out;
    memset(out, 0, REPLY);
    memcpy(out, part->in, SHORTEST);
    out[0] = 2;
    out[HOPS] = 0;
    memcpy(out + YIADDR, (unsigned char[]){10, 0, (unsigned char)part->index, (unsigned char)(FIRST_ADDRESS + part->slot)}, 4);
    out[KIND] = part->asks ? OFFER : ACK;
    out[KIND + 1] = 54;
    out[KIND + 2] = 4;
    memcpy(out + SERVER_ID, (unsigned char[]){10, 0, (unsigned char)part->index, 1}, 4);
    out[SERVER_ID + 4] = 255;
}

static void take_at_server(struct standin *all) {
    int count = 0;
    while (count < all->batch) {
        struct part *part = &all->parts[count];
        if (taken_if_ready(all, all->listen4, SERVER4, part->in, &part->from) == 0) {
            break;
        }
        part->index = part->in[CIRCUIT] % MOST_CIRCUITS;
        part->slot = (part->in[CLIENT] + SLOTS - 1) % SLOTS;
        part->asks = part->in[KIND] == DISCOVER;
        count++;
    }
    if (count == 0) {
        struct sockaddr_in from;
        (void)taken_if_ready(all, all->listen6, SERVER6, all->in, &from);
        return;
    }
    save(all, count);
    for (int at = 0; at < count; at++) {
        make_reply(all, &all->parts[at]);
        send_on(all->listen4, all->out, REPLY, &all->parts[at].from);
    }
    memset(all->ready + RELAYS, true, (size_t)all->relay_count);
}

static void take_from_relay(struct standin *all, int relay) {
    struct sockaddr_in from;
    size_t length = taken_if_ready(all, all->relays[relay], RELAYS + relay, all->in, &from);
    if (length > 0) {
        struct circuit *circuit = &all->circuits[all->in[CIRCUIT] % MOST_CIRCUITS];
        all->out[0] = 1;
        memcpy(all->out + 1, all->in, length);
        send_on(circuit->socket4, all->out, length + 1, &circuit->client);
    }
}

static void turn(struct standin *all) {
    struct timespec now;
    clock_gettime(CLOCK_REALTIME, &now);
    look(all);
    for (int index = 0; index < all->circuit_count; index++) {
        take_frame(all, index);
    }
    take_at_server(all);
    for (int relay = 0; relay < all->relay_count; relay++) {
        take_from_relay(all, relay);
    }
}

/* Counts the circuits and the relays. */
static void read_config(struct standin *all, const char *path) {
    char line[256];
    FILE *config = fopen(path, "r");
    if (config == NULL) {
        fail(path);
    }
    while (fgets(line, sizeof line, config) != NULL) {
        all->circuit_count += strcmp(line, "[[circuit]]\n") == 0;
        all->relay_count += strcmp(line, "[[relay]]\n") == 0;
    }
    fclose(config);
}

static bool is_from_1_to(int most, int count) {
    return 1 <= count && count <= most;
}

static bool read_words(int count, char **words, struct words *values) {
    *values = (struct words){.port = 20000, .batch = 1};
    for (int at = 1; at < count; at++) {
        const char *word = words[at], *value = at + 1 < count ? words[at + 1] : "";
        if (strcmp(word, "--format") == 0) {
            continue;
        }
        if (word[0] != '-') {
            values->config = word;
            continue;
        }
        at++;
        if (strcmp(word, "--disk") == 0) {
            values->disk = value;
        } else if (strcmp(word, "--turns") == 0) {
            values->turns = atol(value);
        } else if (strcmp(word, "--port") == 0) {
            values->port = atoi(value);
        } else if (strcmp(word, "--batch") == 0) {
            values->batch = atoi(value);
        } else {
            return false;
        }
    }
    return values->config != NULL && values->disk != NULL && is_from_1_to(MOST_BATCH, values->batch);
}

int main(int count, char **words) {
    static struct standin all;
    struct words values;
    if (!read_words(count, words, &values)) {
        fprintf(stderr, "usage: standin CONFIG --disk FILE --turns N [--format] [--port P] [--batch B]\n");
        return 2;
    }
    read_config(&all, values.config);
    if (!is_from_1_to(MOST_CIRCUITS, all.circuit_count) || !is_from_1_to(all.circuit_count, all.relay_count)) {
        fprintf(stderr, "%s: not 1 to %d circuits behind at most as many relays\n", values.config, MOST_CIRCUITS);
        return 2;
    }
    all.batch = values.batch;
    all.file = formatted(values.disk, all.circuit_count);
    bind_all(&all, values.port);
    fprintf(stderr, "serving %d circuits, leases in %s\n", all.circuit_count, values.disk);
    for (long made = 0; made < values.turns; made++) {
        turn(&all);
    }
    return 0;
}
