/* Clients of a DHCP server, for scripts/measure/peers: the same ones for every server, over UDP sockets of the same kind, one for
   each circuit. They speak as a relay to a server, and as clients on a circuit's port to `accessd`, which is the relay too.
       peers_load NAME=VALUE..
           protocol=4|6  as=relay|circuit  what=offer|lease|fresh|renew
           circuits=N    how many, 1 by default
           clients=N     how many on each circuit, 1 by default
           outstanding=N how many of all clients wait for an answer at a time, 1 by default; the others wait for their turn
           first=N       the number of the first client, 1 by default
           warm=SECONDS seconds=SECONDS   goes on for so long, and counts in the latter
           rounds=N      or: each client makes so many exchanges; with neither it goes on until SIGTERM
           patience=SECONDS tries=N       when a message is sent again, and after how many a client gives up
           silence=SECONDS                all give up when nobody was answered for so long
           leases=FILE   the leases that clients hold at the beginning
           keep=FILE     where the leases are written that clients hold at the end
           attack=FILE   sends the datagrams of this file, and after each hundred of them a message that has to be answered
   An exchange of 'offer' is a first message and its answer; of 'lease' four messages; 'fresh' is the same, after which the client
   gives its address back, so that each lease is a new one; 'renew' is two messages of a client that holds a lease. Each time
   clients ask for another lease time, so that no server finds that a lease does not change within a second.

   It never sleeps while it waits: where a load sleeps, the server pays for waking it, some 5 microseconds a message on a virtual
   machine, and nothing where the load is still awake. So figures jump between two regimes.

   Writes `begin` when it begins to count, and at the end a line
       end EXCHANGES SECONDS MEDIAN HUNDREDTH REFUSED SILENT ACKS
   with the wait of an exchange in microseconds in the median and at 99 of 100, how often a client was refused, how often a message
   was not answered in time, and how many leases were acknowledged from the start on. */
#define _GNU_SOURCE
#include "peers_messages.h"

#include <arpa/inet.h>
#include <errno.h>
#include <netinet/in.h>
#include <signal.h>
#include <stdint.h>
#include <stdio.h>
#include <stdlib.h>
#include <string.h>
#include <sys/epoll.h>
#include <sys/socket.h>
#include <time.h>

enum {
    MOST_CIRCUITS = 16,
    MOST_CLIENTS = 1024,
    PORTS = 4,
    BUFFER = 2048,
    /* of a transaction number's 24 bits these are the message's, and the others the client's */
    COUNT_BITS = 14,
    /* The lease time that a client asks for, in seconds, and how many less it is by turns. A prime, so that no number of clients that
       take their turns has each ask for what it has: a server that finds a lease as it was may save nothing. */
    LEASE = 600,
    LESS = 251,
    MOST_WAITS = 1 << 22,
    GROUP = 100,
};

static const double FOR_EVER = 1e300;

enum what { OFFERS, LEASES, FRESH, RENEWALS };

struct state {
    struct client client;
    bool holds;
    enum kind sent;
    long transaction;
    /* when its exchange began and its message was last sent, in seconds; how often it was sent; how many exchanges have ended */
    double began, last;
    int tries, rounds;
};

struct end {
    int socket;
    struct sockaddr_storage server;
    socklen_t length;
};

struct load {
    struct dialect dialect;
    enum what what;
    int circuits, clients, outstanding, first, rounds, tries;
    double warm, seconds, patience, silence;
    const char *leases, *keep, *attack;
    int watched, port;
    struct end ends[MOST_CIRCUITS];
    struct state states[MOST_CLIENTS];
    int total, holders, resting;
    unsigned sent;
    bool counts;
    long done, refused, silent, acks;
    double answered;
    float *waits;
};

static volatile sig_atomic_t is_over;

static void end_it(int signal_number) {
    (void)signal_number;
    is_over = 1;
}

static void fail(const char *what) {
    fprintf(stderr, "peers_load: %s\n", what);
    exit(1);
}

static double now(void) {
    struct timespec time;
    clock_gettime(CLOCK_MONOTONIC, &time);
    return (double)time.tv_sec + (double)time.tv_nsec / 1e9;
}

static socklen_t address_of(struct sockaddr_storage *address, const char *text, int port) {
    memset(address, 0, sizeof *address);
    struct sockaddr_in *of4 = (struct sockaddr_in *)address;
    struct sockaddr_in6 *of6 = (struct sockaddr_in6 *)address;
    if (inet_pton(AF_INET, text, &of4->sin_addr) == 1) {
        of4->sin_family = AF_INET;
        of4->sin_port = htons((uint16_t)port);
        return sizeof *of4;
    }
    if (inet_pton(AF_INET6, text, &of6->sin6_addr) != 1) {
        fail("no address");
    }
    of6->sin6_family = AF_INET6;
    of6->sin6_port = htons((uint16_t)port);
    return sizeof *of6;
}

/* The socket of a circuit, by scripts/measure/peers_network.py and docs/FORMATS.md, The sockets of `accessd`. */
static void open_end(struct load *load, int circuit) {
    struct end *end = &load->ends[circuit];
    struct sockaddr_storage own;
    socklen_t length;
    char text[INET6_ADDRSTRLEN];
    bool is4 = load->dialect.protocol == 4;
    if (load->dialect.is_relay) {
        snprintf(text, sizeof text, is4 ? "10.0.%d.1" : "2001:db8:0:%x::1", (unsigned)circuit);
        length = address_of(&own, text, is4 ? 67 : 547);
        end->length = address_of(&end->server, is4 ? "192.0.2.1" : "fd00::1", is4 ? 67 : 547);
    } else {
        int port = load->port + PORTS * circuit + !is4;
        length = address_of(&own, "127.0.0.1", port + 2);
        end->length = address_of(&end->server, "127.0.0.1", port);
    }
    end->socket = socket(own.ss_family, SOCK_DGRAM | SOCK_CLOEXEC | SOCK_NONBLOCK, 0);
    struct epoll_event event = {.events = EPOLLIN, .data.u32 = (uint32_t)circuit};
    if (end->socket < 0 || bind(end->socket, (struct sockaddr *)&own, length) != 0
        || epoll_ctl(load->watched, EPOLL_CTL_ADD, end->socket, &event) != 0) {
        fail(strerror(errno));
    }
}

static void send_bytes(const struct end *end, const unsigned char *bytes, size_t length) {
    ssize_t sent = sendto(end->socket, bytes, length, MSG_NOSIGNAL, (const struct sockaddr *)&end->server, end->length);
    /* a server that was killed is no fault here */
    if (sent != (ssize_t)length && errno != ECONNREFUSED) {
        fail(strerror(errno));
    }
}

static void send_once(struct load *load, struct state *state, enum kind kind, bool is_again) {
    unsigned char message[LONGEST_MESSAGE];
    long index = state - load->states;
    if (!is_again) {
        load->sent++;
        state->sent = kind;
        state->transaction = index << COUNT_BITS | (load->sent & ((1 << COUNT_BITS) - 1));
    }
    size_t length = write_message(message, load->dialect, kind, &state->client, (unsigned)state->transaction, LEASE - load->sent % LESS);
    send_bytes(&load->ends[state->client.circuit], message, length);
    state->last = now();
}

static void send_message(struct load *load, struct state *state, enum kind kind) {
    send_once(load, state, kind, false);
}

static void begin_exchange(struct load *load, struct state *state) {
    state->tries = 1;
    send_message(load, state, load->what == RENEWALS && state->holds ? RENEW : ASK);
    state->began = state->last;
}

/* Of the clients that take turns with this one the first from it on begins that has a round to make. */
static void begin_from(struct load *load, int index) {
    for (int tried = 0; tried < load->total; tried += load->outstanding) {
        struct state *state = &load->states[index];
        if (load->rounds == 0 || state->rounds < load->rounds) {
            begin_exchange(load, state);
            return;
        }
        index += load->outstanding;
        index = index < load->total ? index : index % load->outstanding;
    }
    load->resting++;
}

static void begin_next(struct load *load, struct state *state) {
    int index = (int)(state - load->states) + load->outstanding;
    state->transaction = -1;
    begin_from(load, index < load->total ? index : index % load->outstanding);
}

/* It holds nothing any more, and has made a round. */
static void give_up(struct load *load, struct state *state) {
    load->holders -= state->holds;
    state->holds = false;
    state->rounds++;
    begin_next(load, state);
}

static void end_exchange(struct load *load, struct state *state) {
    state->rounds++;
    if (load->counts && load->done < MOST_WAITS) {
        load->waits[load->done] = (float)((now() - state->began) * 1e6);
    }
    load->done += load->counts;
    begin_next(load, state);
}

static void take_lease(struct load *load, struct state *state) {
    load->acks++;
    if (load->what == FRESH) {
        /* a DHCPv4 server does not answer that */
        send_message(load, state, RELEASE);
        if (load->dialect.protocol == 6) {
            return;
        }
    }
    bool counts = load->what != RENEWALS || state->sent == RENEW;
    load->holders += load->what != FRESH && !state->holds;
    state->holds = load->what != FRESH;
    if (counts) {
        end_exchange(load, state);
    } else {
        begin_next(load, state);
    }
}

/* Whoever was refused begins anew, if it may: the address that it was offered may have gone to another client. */
static void take_refusal(struct load *load, struct state *state) {
    load->refused++;
    if (state->sent == RENEW || (load->tries > 0 && state->tries >= load->tries)) {
        give_up(load, state);
        return;
    }
    state->tries++;
    send_message(load, state, ASK);
}

static void take_answer(struct load *load, struct state *state, enum meaning meaning) {
    load->answered = now();
    if (meaning == OFFERED && state->sent == ASK) {
        if (load->what == OFFERS) {
            end_exchange(load, state);
        } else {
            send_message(load, state, TAKE);
        }
    } else if (meaning == LEASED && (state->sent == TAKE || state->sent == RENEW)) {
        take_lease(load, state);
    } else if (state->sent == RELEASE) {
        end_exchange(load, state);
    } else if (meaning == REFUSED) {
        take_refusal(load, state);
    }
}

static void take(struct load *load, const unsigned char *answer, size_t length) {
    long transaction = transaction_of(answer, length, load->dialect);
    if (transaction < 0 || transaction >> COUNT_BITS >= load->total) {
        return;
    }
    struct state *state = &load->states[transaction >> COUNT_BITS];
    if (state->transaction == transaction) {
        struct client before = state->client;
        enum meaning meaning = read_answer(answer, length, load->dialect, &state->client);
        if (state->sent == RENEW && meaning == LEASED && memcmp(before.address, state->client.address, 16) != 0) {
            /* another address than its own is no renewal */
            meaning = REFUSED;
        }
        take_answer(load, state, meaning);
    }
}

/* Takes everything that has come. */
static void take_all(struct load *load) {
    struct epoll_event events[MOST_CIRCUITS];
    unsigned char answer[BUFFER];
    int count = epoll_wait(load->watched, events, MOST_CIRCUITS, 0);
    for (int index = 0; index < count; index++) {
        ssize_t length;
        while ((length = recv(load->ends[events[index].data.u32].socket, answer, sizeof answer, 0)) >= 0) {
            take(load, answer, (size_t)length);
        }
    }
}

/* Sends again what has not been answered for long, or gives up. */
static void send_again(struct load *load) {
    double moment = now();
    for (int index = 0; index < load->total; index++) {
        struct state *state = &load->states[index];
        if (state->transaction < 0 || moment - state->last < load->patience) {
            continue;
        }
        load->silent++;
        if (load->tries > 0 && state->tries >= load->tries) {
            give_up(load, state);
        } else {
            state->tries++;
            send_once(load, state, state->sent, true);
        }
    }
}

static void start(struct load *load) {
    for (int index = 0; index < load->outstanding; index++) {
        begin_from(load, index);
    }
    load->answered = now();
}

/* Goes on until this moment, or until each client has made its rounds or nobody is answered any more. */
static void run(struct load *load, double end) {
    double looked = now();
    while (!is_over && load->resting < load->outstanding) {
        take_all(load);
        double moment = now();
        if (moment >= end || (load->silence > 0 && moment - load->answered > load->silence)) {
            break;
        }
        if (moment - looked > 0.01) {
            send_again(load);
            looked = moment;
        }
        if (end < FOR_EVER && moment - load->answered > 5) {
            fail("no answer for five seconds");
        }
    }
}

static int by_size(const void *one, const void *other) {
    float difference = *(const float *)one - *(const float *)other;
    return difference < 0 ? -1 : difference > 0;
}

static void report(struct load *load, double seconds) {
    size_t count = load->done < MOST_WAITS ? (size_t)load->done : MOST_WAITS;
    qsort(load->waits, count, sizeof *load->waits, by_size);
    double median = count > 0 ? load->waits[count / 2] : 0, hundredth = count > 0 ? load->waits[count * 99 / 100] : 0;
    printf("end %ld %.6f %.1f %.1f %ld %ld %ld\n", load->done, seconds, median, hundredth, load->refused, load->silent, load->acks);
}

static void write_leases(const struct load *load) {
    FILE *file = fopen(load->keep, "w");
    if (file == NULL) {
        fail(strerror(errno));
    }
    for (int index = 0; index < load->total; index++) {
        const struct state *state = &load->states[index];
        /* who had no answer in the round that everybody was to make does not know whether it still holds its lease */
        if (!state->holds || state->rounds < load->rounds) {
            continue;
        }
        fprintf(file, "%d ", index);
        for (int byte = 0; byte < 16; byte++) {
            fprintf(file, "%02x", state->client.address[byte]);
        }
        fprintf(file, " ");
        for (size_t byte = 0; byte < (load->dialect.protocol == 4 ? 4 : state->client.server_length); byte++) {
            fprintf(file, "%02x", state->client.server[byte]);
        }
        fprintf(file, "\n");
    }
    if (fclose(file) != 0) {
        fail(strerror(errno));
    }
}

static size_t read_digits(unsigned char *to, const char *digits, size_t most) {
    size_t length = 0;
    unsigned byte;
    while (length < most && sscanf(digits + 2 * length, "%2x", &byte) == 1) {
        to[length++] = (unsigned char)byte;
    }
    return length;
}

static void read_leases(struct load *load) {
    FILE *file = fopen(load->leases, "r");
    char address[64], server[2 * LONGEST_SERVER + 2];
    int index;
    if (file == NULL) {
        fail(strerror(errno));
    }
    while (fscanf(file, "%d %63s %261s", &index, address, server) == 3 && index < load->total) {
        struct state *state = &load->states[index];
        read_digits(state->client.address, address, 16);
        state->client.server_length = read_digits(state->client.server, server, LONGEST_SERVER);
        state->holds = true;
        load->holders++;
    }
    fclose(file);
    /* the others are not asked */
    for (index = 0; index < load->total; index++) {
        load->states[index].rounds = load->states[index].holds ? 0 : load->rounds;
    }
}

/* Whether a client's first message is answered by an offer. */
static bool is_served(struct load *load, struct state *state) {
    load->rounds++;
    load->states[0].rounds = load->rounds;
    load->resting = 0;
    long before = load->done;
    begin_exchange(load, state);
    run(load, FOR_EVER);
    return load->done > before;
}

static void attack(struct load *load) {
    FILE *file = fopen(load->attack, "r");
    unsigned char datagram[BUFFER];
    long sent = 0, asked = 0, unanswered = 0;
    int high, low;
    if (file == NULL || load->circuits < 2) {
        fail("an attack needs a file and two circuits");
    }
    /* the client is on the second circuit, and what is sent comes from the first */
    load->total = 2;
    load->outstanding = 1;
    load->counts = true;
    while ((high = getc(file)) != EOF && (low = getc(file)) != EOF && unanswered < 20) {
        size_t length = (size_t)(high << 8 | low);
        if (length > sizeof datagram || fread(datagram, 1, length, file) != length) {
            fail("the file of datagrams is cut off");
        }
        send_bytes(&load->ends[0], datagram, length);
        if (++sent % GROUP == 0) {
            asked++;
            unanswered += !is_served(load, &load->states[1]);
        }
    }
    fclose(file);
    printf("attack %ld %ld %ld\n", sent, asked, unanswered);
}

static bool read_number(struct load *load, const char *name, const char *value) {
    const struct { const char *name; int *number; } known[] = {
        {"protocol", &load->dialect.protocol}, {"circuits", &load->circuits}, {"clients", &load->clients},
        {"outstanding", &load->outstanding}, {"first", &load->first}, {"rounds", &load->rounds}, {"tries", &load->tries},
        {"port", &load->port}};
    for (size_t at = 0; at < sizeof known / sizeof *known; at++) {
        if (strcmp(name, known[at].name) == 0) {
            *known[at].number = atoi(value);
            return true;
        }
    }
    return false;
}

static bool read_time(struct load *load, const char *name, const char *value) {
    const struct { const char *name; double *seconds; } known[] = {
        {"warm", &load->warm}, {"seconds", &load->seconds}, {"patience", &load->patience}, {"silence", &load->silence}};
    for (size_t at = 0; at < sizeof known / sizeof *known; at++) {
        if (strcmp(name, known[at].name) == 0) {
            *known[at].seconds = atof(value);
            return true;
        }
    }
    return false;
}

static bool read_path(struct load *load, const char *name, const char *value) {
    const struct { const char *name; const char **path; } known[] = {
        {"leases", &load->leases}, {"keep", &load->keep}, {"attack", &load->attack}};
    for (size_t at = 0; at < sizeof known / sizeof *known; at++) {
        if (strcmp(name, known[at].name) == 0) {
            *known[at].path = value;
            return true;
        }
    }
    return false;
}

static bool read_kind(struct load *load, const char *name, const char *value) {
    static const char *const kinds[] = {"offer", "lease", "fresh", "renew"};
    if (strcmp(name, "as") == 0) {
        load->dialect.is_relay = strcmp(value, "relay") == 0;
        return true;
    }
    for (int kind = 0; strcmp(name, "what") == 0 && kind < 4; kind++) {
        if (strcmp(value, kinds[kind]) == 0) {
            load->what = (enum what)kind;
            return true;
        }
    }
    return false;
}

static void read_word(struct load *load, char *word) {
    char *value = strchr(word, '=');
    if (value == NULL) {
        fail("an argument is not NAME=VALUE");
    }
    *value++ = '\0';
    if (!read_number(load, word, value) && !read_time(load, word, value) && !read_path(load, word, value)
        && !read_kind(load, word, value)) {
        fail("an argument of no such name or value");
    }
}

static void prepare(struct load *load) {
    load->total = load->circuits * load->clients;
    if (load->circuits < 1 || load->circuits > MOST_CIRCUITS || load->total < 1 || load->total > MOST_CLIENTS) {
        fail("1 to 16 circuits, and 1 to 1024 clients in all");
    }
    if (load->outstanding < 1 || load->outstanding > load->total) {
        load->outstanding = load->total;
    }
    load->watched = epoll_create1(EPOLL_CLOEXEC);
    load->waits = malloc(MOST_WAITS * sizeof *load->waits);
    if (load->watched < 0 || load->waits == NULL) {
        fail("out of memory");
    }
    for (int circuit = 0; circuit < load->circuits; circuit++) {
        open_end(load, circuit);
    }
    for (int index = 0; index < MOST_CLIENTS; index++) {
        struct client client = {.circuit = index % load->circuits, .number = (unsigned)(load->first + index)};
        load->states[index] = (struct state){.client = client, .transaction = -1};
    }
}

/* What does not count yet: for a while, and until each client holds a lease where it has to. */
static void warm_up(struct load *load) {
    run(load, now() + load->warm);
    while (load->what == RENEWALS && load->holders < load->total && !is_over) {
        run(load, now() + 0.01);
    }
}

static void measure(struct load *load) {
    start(load);
    if (load->rounds == 0) {
        warm_up(load);
    }
    load->counts = true;
    printf("begin\n");
    fflush(stdout);
    double began = now();
    run(load, load->rounds > 0 || load->seconds == 0 ? FOR_EVER : began + load->seconds);
    double seconds = now() - began;
    /* what was answered until now was acknowledged */
    take_all(load);
    if (load->keep != NULL) {
        write_leases(load);
    }
    report(load, seconds);
}

int main(int count, char **words) {
    static struct load load = {.dialect = {4, true}, .circuits = 1, .clients = 1, .outstanding = 1, .first = 1, .patience = 1};
    for (int at = 1; at < count; at++) {
        read_word(&load, words[at]);
    }
    prepare(&load);
    signal(SIGTERM, end_it);
    if (load.leases != NULL) {
        read_leases(&load);
    }
    if (load.attack != NULL) {
        attack(&load);
    } else {
        measure(&load);
    }
    return 0;
}
