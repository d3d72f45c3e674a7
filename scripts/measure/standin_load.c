/* Clients of DHCPv4 for `accessd` and for its stand-in (standin.c), each with one message that is not answered yet. They never sleep: a
   client that sleeps has to be woken by whoever answers it, which costs a server some 5 microseconds a message on a virtual
   machine, or nothing where the client happens to be awake, so that figures jump between two regimes.
       standin_load KIND CIRCUITS CLIENTS PORT WARM SECONDS
   KIND is 'offer' (a DISCOVER and its OFFER), 'lease' (these, a REQUEST and its ACK), 'together' (the same, and nobody begins
   again before everybody has an ACK, as after a power cut), 'collect' (the same, and nobody asks for a lease before everybody has
   an OFFER, as clients that wait for more offers) or 'renew' (the REQUEST and the ACK of a client that has its address). CLIENTS
   is how many there are over all circuits, at most 16 on each. After WARM seconds, and once each client has a lease where KIND is
   'renew', prints how many exchanges a second end in the next SECONDS. */
#define _GNU_SOURCE
#include <arpa/inet.h>
#include <errno.h>
#include <netinet/in.h>
#include <stdbool.h>
#include <stdint.h>
#include <stdio.h>
#include <stdlib.h>
#include <string.h>
#include <sys/socket.h>
#include <time.h>

enum {
    MOST_CIRCUITS = 16,
    MOST_EACH = 16,
    PORTS = 4,
    BUFFER = 2048,
    /* where a DHCPv4 message has what */
    XID = 4,
    CIADDR = 12,
    YIADDR = 16,
    CHADDR = 28,
    COOKIE = 236,
    KIND = 242,
    OPTIONS = 243,
    SERVER_ID = 245,
    BARE = 244,
    SELECTING = BARE + 12,
    SHORTEST_ANSWER = 1 + SERVER_ID + 4,
    DISCOVER = 1,
    OFFER = 2,
    REQUEST = 3,
    ACK = 5,
};

enum what { WANTS_OFFERS, WANTS_LEASES, WANT_LEASES_TOGETHER, COLLECT_OFFERS, RENEWS };

struct client {
    unsigned char discover[BARE], request[SELECTING], renewal[BARE];
    bool holds;
};

struct circuit {
    int end;
    struct sockaddr_in server;
    struct client clients[MOST_EACH];
};

struct load {
    enum what what;
    int circuit_count, client_count;
    /* how many exchanges ended; how many clients of those that began together have an OFFER, and an ACK; how many hold a lease */
    long done;
    int offered, ended, holders;
    struct circuit circuits[MOST_CIRCUITS];
};

/* An answer that nobody waits for, or none for so long, ends the run. */
static const double PATIENCE = 2;

static void fail(const char *what) {
    fprintf(stderr, "standin_load: %s\n", what);
    exit(1);
}

static double seconds(void) {
    struct timespec now;
    clock_gettime(CLOCK_MONOTONIC, &now);
    return (double)now.tv_sec + (double)now.tv_nsec / 1e9;
}

static struct sockaddr_in local(int port) {
    struct sockaddr_in address = {.sin_family = AF_INET, .sin_port = htons((uint16_t)port)};
    address.sin_addr.s_addr = htonl(INADDR_LOOPBACK);
    return address;
}

static int bound(int port) {
    struct sockaddr_in address = local(port);
    int end = socket(AF_INET, SOCK_DGRAM | SOCK_CLOEXEC | SOCK_NONBLOCK, 0);
    if (end < 0 || bind(end, (struct sockaddr *)&address, sizeof address) != 0) {
        fail(strerror(errno));
    }
    return end;
}

/* A message without options but its kind, as scripts/lib/client.py has it: its number is the client's. */
static void make_message(unsigned char *message, unsigned char kind, int number) {
    static const unsigned char head[] = {1, 1, 6, 0}, cookie[] = {99, 130, 83, 99};
    memset(message, 0, BARE);
    memcpy(message, head, sizeof head);
    message[XID + 3] = (unsigned char)number;
    message[CHADDR] = 2;
    message[CHADDR + 5] = (unsigned char)number;
    memcpy(message + COOKIE, cookie, sizeof cookie);
    memcpy(message + COOKIE + 4, (unsigned char[]){53, 1, kind}, 3);
    message[OPTIONS] = 255;
}

static void send_to(struct circuit *circuit, const unsigned char *message, size_t length) {
    ssize_t sent = sendto(circuit->end, message, length, MSG_NOSIGNAL, (struct sockaddr *)&circuit->server, sizeof circuit->server);
    if (sent != (ssize_t)length) {
        fail("the system refuses a message");
    }
}

/* The client's REQUEST is for what this answer offers. */
static void select_offer(struct client *client, const unsigned char *answer) {
    unsigned char *options = client->request + OPTIONS;
    memcpy(options, (unsigned char[]){54, 4}, 2);
    memcpy(options + 2, answer + SERVER_ID, 4);
    memcpy(options + 6, (unsigned char[]){50, 4}, 2);
    memcpy(options + 8, answer + YIADDR, 4);
    options[12] = 255;
}

/* Asks again for the address of this acknowledgement. */
static void renew(struct load *load, struct circuit *circuit, struct client *client, const unsigned char *answer) {
    if (!client->holds) {
        client->holds = true;
        load->holders++;
        memcpy(client->renewal + CIADDR, answer + YIADDR, 4);
    }
    send_to(circuit, client->renewal, BARE);
}

/* Every client sends its DISCOVER, or its REQUEST. */
static void send_all(struct load *load, bool asks) {
    for (int index = 0; index < load->client_count; index++) {
        struct circuit *circuit = &load->circuits[index % load->circuit_count];
        struct client *client = &circuit->clients[index / load->circuit_count];
        send_to(circuit, asks ? client->request : client->discover, asks ? SELECTING : BARE);
    }
}

/* A client has an OFFER, and asks for what that offers: at once, or once everybody has one. */
static void ask(struct load *load, struct circuit *circuit, struct client *client, const unsigned char *answer) {
    select_offer(client, answer);
    if (load->what != COLLECT_OFFERS) {
        send_to(circuit, client->request, SELECTING);
    } else if (++load->offered == load->client_count) {
        load->offered = 0;
        send_all(load, true);
    }
}

/* A client's exchange ended: what comes next. */
static void begin_again(struct load *load, struct circuit *circuit, struct client *client, const unsigned char *answer) {
    load->done++;
    if (load->what == RENEWS) {
        renew(load, circuit, client, answer);
    } else if (load->what != WANT_LEASES_TOGETHER && load->what != COLLECT_OFFERS) {
        send_to(circuit, client->discover, BARE);
    } else if (++load->ended == load->client_count) {
        load->ended = 0;
        send_all(load, false);
    }
}

static void take(struct load *load, struct circuit *circuit, const unsigned char *answer) {
    int number = answer[CHADDR + 5];
    if (number < 1 || number > MOST_EACH) {
        fail("an answer to nobody");
    }
    struct client *client = &circuit->clients[number - 1];
    bool is_offer = answer[KIND] == OFFER;
    if (!is_offer && answer[KIND] != ACK) {
        fail("an answer that is no OFFER and no ACK");
    }
    if (is_offer && load->what != WANTS_OFFERS) {
        ask(load, circuit, client, answer);
    } else {
        begin_again(load, circuit, client, answer);
    }
}

/* Takes what waits at each circuit, and returns how much that was. */
static int take_all(struct load *load) {
    unsigned char datagram[BUFFER];
    int count = 0;
    for (int index = 0; index < load->circuit_count; index++) {
        struct circuit *circuit = &load->circuits[index];
        ssize_t length;
        while ((length = recv(circuit->end, datagram, sizeof datagram, 0)) > 0) {
            if (length < SHORTEST_ANSWER) {
                fail("an answer that is too short");
            }
            take(load, circuit, datagram + 1);
            count++;
        }
    }
    return count;
}

/* Goes on until this moment, and until each client holds a lease where that is wanted. Returns when that was. */
static double run(struct load *load, double end) {
    double now = seconds(), answered = now;
    while (now < end || (load->what == RENEWS && load->holders < load->client_count)) {
        if (take_all(load) > 0) {
            answered = now;
        } else if (now - answered > PATIENCE) {
            fail("no answer");
        }
        now = seconds();
    }
    return now;
}

static void begin(struct load *load, int port) {
    for (int index = 0; index < load->circuit_count; index++) {
        struct circuit *circuit = &load->circuits[index];
        circuit->server = local(port + PORTS * index);
        circuit->end = bound(port + PORTS * index + 2);
    }
    for (int index = 0; index < load->client_count; index++) {
        struct circuit *circuit = &load->circuits[index % load->circuit_count];
        int place = index / load->circuit_count;
        struct client *client = &circuit->clients[place];
        make_message(client->discover, DISCOVER, place + 1);
        make_message(client->request, REQUEST, place + 1);
        make_message(client->renewal, REQUEST, place + 1);
    }
    send_all(load, false);
}

static bool read_kind(const char *word, enum what *what) {
    static const char *const kinds[] = {"offer", "lease", "together", "collect", "renew"};
    for (int kind = 0; kind < 5; kind++) {
        if (strcmp(word, kinds[kind]) == 0) {
            *what = (enum what)kind;
            return true;
        }
    }
    return false;
}

int main(int count, char **words) {
    static struct load load;
    if (count != 7 || !read_kind(words[1], &load.what)) {
        fprintf(stderr, "usage: standin_load offer|lease|together|collect|renew CIRCUITS CLIENTS PORT WARM SECONDS\n");
        return 2;
    }
    load.circuit_count = atoi(words[2]);
    load.client_count = atoi(words[3]);
    if (load.circuit_count < 1 || load.circuit_count > MOST_CIRCUITS || load.client_count < 1
        || load.client_count > load.circuit_count * MOST_EACH) {
        fail("1 to 16 circuits, and at most 16 clients on each");
    }
    begin(&load, atoi(words[4]));
    double began = run(&load, seconds() + atof(words[5]));
    long before = load.done;
    double ended = run(&load, began + atof(words[6]));
    printf("%.1f\n", (double)(load.done - before) / (ended - began));
    return 0;
}
