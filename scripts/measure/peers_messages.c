/* See peers_messages.h. The networks are those of scripts/lib/configuration: circuit i has the gateway 10.0.i.1 and the link
   2001:db8:0:i::1, and is called "ci". */
#include "peers_messages.h"

#include <stdint.h>
#include <stdio.h>
#include <string.h>

enum {
    /* where a DHCPv4 message has what (RFC 2131, section 2) */
    HOPS4 = 3,
    XID4 = 4,
    CIADDR = 12,
    YIADDR = 16,
    GIADDR = 24,
    CHADDR = 28,
    COOKIE = 236,
    OPTIONS4 = 240,
    SHORTEST4 = 300,
    /* and a DHCPv6 message of a relay (RFC 8415, section 9) */
    LINK6 = 2,
    PEER6 = 18,
    OPTIONS_OF_RELAY6 = 34,
    OPTIONS6 = 4,
    /* where the options in an IA_NA begin */
    IN_IA = 12,
    /* the addresses of the largest pool that a server has here */
    LARGEST_POOL = 64,
};

static const unsigned char cookie[] = {99, 130, 83, 99};

struct bytes {
    unsigned char *at;
    size_t length;
};

static void add(struct bytes *to, const void *bytes, size_t length) {
    memcpy(to->at + to->length, bytes, length);
    to->length += length;
}

static void put(unsigned char *at, uint64_t value, size_t length) {
    while (length-- > 0) {
        at[length] = (unsigned char)value;
        value >>= 8;
    }
}

static void add_number(struct bytes *to, uint64_t value, size_t length) {
    put(to->at + to->length, value, length);
    to->length += length;
}

static void add_option4(struct bytes *to, int code, const void *value, size_t length) {
    add_number(to, (uint64_t)code, 1);
    add_number(to, length, 1);
    add(to, value, length);
}

static void add_option6(struct bytes *to, int code, const void *value, size_t length) {
    add_number(to, (uint64_t)code, 2);
    add_number(to, length, 2);
    add(to, value, length);
}

static uint64_t number_at(const unsigned char *at, size_t length) {
    uint64_t value = 0;
    for (size_t index = 0; index < length; index++) {
        value = value << 8 | at[index];
    }
    return value;
}

static void write_hardware(unsigned char *at, const struct client *client) {
    put(at, 0x020000000000 | client->number, 6);
}

static void write_gateway(unsigned char *at, const struct client *client) {
    put(at, 0x0a000001 | (unsigned)client->circuit << 8, 4);
}

/* Option 82 as the relay of `accessd` writes it: the circuit, and the server's identifier towards its clients (RFC 5107), so that
   renewals pass the relay too. */
static void add_agent4(struct bytes *to, const struct client *client) {
    unsigned char inside[32], gateway[4];
    struct bytes agent = {inside, 0};
    char name[8];
    int length = snprintf(name, sizeof name, "c%d", client->circuit);
    add_option4(&agent, 1, name, (size_t)length);
    write_gateway(gateway, client);
    add_option4(&agent, 11, gateway, sizeof gateway);
    add_option4(to, 82, inside, agent.length);
}

static size_t write4(unsigned char *message, bool is_relay, enum kind kind, const struct client *client, unsigned transaction,
                     unsigned seconds) {
    static const unsigned char types[] = {[ASK] = 1, [TAKE] = 3, [RENEW] = 3, [RELEASE] = 7};
    /* a server that sends only what is asked for: mask, router, name servers, lease time and both timers */
    static const unsigned char wanted[] = {1, 3, 6, 51, 58, 59};
    struct bytes to = {message, OPTIONS4};
    unsigned char lease[4];
    memset(message, 0, OPTIONS4);
    memcpy(message, (unsigned char[]){1, 1, 6, is_relay}, 4);
    put(message + XID4, transaction, 4);
    write_hardware(message + CHADDR, client);
    memcpy(message + COOKIE, cookie, sizeof cookie);
    if (kind == RENEW || kind == RELEASE) {
        memcpy(message + CIADDR, client->address, 4);
    }
    if (is_relay) {
        write_gateway(message + GIADDR, client);
    }
    add_option4(&to, 53, &types[kind], 1);
    if (kind == TAKE || kind == RELEASE) {
        add_option4(&to, 54, client->server, 4);
    }
    if (kind == TAKE) {
        add_option4(&to, 50, client->address, 4);
    }
    if (kind != RELEASE) {
        put(lease, seconds, 4);
        add_option4(&to, 51, lease, sizeof lease);
        add_option4(&to, 55, wanted, sizeof wanted);
    }
    if (is_relay) {
        add_agent4(&to, client);
    }
    add_number(&to, 255, 1);
    while (to.length < SHORTEST4) {
        add_number(&to, 0, 1);
    }
    return to.length;
}

static size_t write_client6(unsigned char *message, enum kind kind, const struct client *client, unsigned transaction, unsigned seconds) {
    static const unsigned char types[] = {[ASK] = 1, [TAKE] = 3, [RENEW] = 5, [RELEASE] = 8};
    struct bytes to = {message, 0};
    unsigned char duid[10] = {0, 3, 0, 1}, inside[64] = {0}, address[24] = {0};
    struct bytes ia = {inside, IN_IA};
    add_number(&to, types[kind], 1);
    add_number(&to, transaction, 3);
    write_hardware(duid + 4, client);
    add_option6(&to, 1, duid, sizeof duid);
    if (kind != ASK) {
        add_option6(&to, 2, client->server, client->server_length);
    }
    add_option6(&to, 8, (unsigned char[]){0, 0}, 2);
    inside[3] = 1;
    if (kind != ASK) {
        memcpy(address, client->address, 16);
        put(address + 16, seconds, 4);
        put(address + 20, seconds, 4);
        add_option6(&ia, 5, address, sizeof address);
    }
    add_option6(&to, 3, inside, ia.length);
    return to.length;
}

static void write_peer(unsigned char *at, const struct client *client) {
    put(at, 0xfe80000000000000, 8);
    put(at + 8, client->number, 8);
}

static size_t write6(unsigned char *message, bool is_relay, enum kind kind, const struct client *client, unsigned transaction,
                     unsigned seconds) {
    unsigned char inside[LONGEST_MESSAGE / 2];
    char name[8];
    if (!is_relay) {
        write_peer(message, client);
        return 16 + write_client6(message + 16, kind, client, transaction, seconds);
    }
    size_t length = write_client6(inside, kind, client, transaction, seconds);
    struct bytes to = {message, OPTIONS_OF_RELAY6};
    message[0] = 12;
    message[1] = 0;
    put(message + LINK6, 0x20010db800000000 | (unsigned)client->circuit, 8);
    put(message + LINK6 + 8, 1, 8);
    write_peer(message + PEER6, client);
    add_option6(&to, 18, name, (size_t)snprintf(name, sizeof name, "c%d", client->circuit));
    add_option6(&to, 9, inside, length);
    return to.length;
}

size_t write_message(unsigned char *message, struct dialect dialect, enum kind kind, const struct client *client, unsigned transaction,
                     unsigned seconds) {
    return (dialect.protocol == 4 ? write4 : write6)(message, dialect.is_relay, kind, client, transaction, seconds);
}

/* The value of the first option of this code, and its length. NULL where there is none. */
static const unsigned char *find4(const unsigned char *at, const unsigned char *end, int code, size_t *length) {
    while (at + 1 < end && *at != 255) {
        if (*at == 0) {
            at++;
            continue;
        }
        if (at + 2 + at[1] > end) {
            return NULL;
        }
        if (*at == code) {
            *length = at[1];
            return at + 2;
        }
        at += 2 + at[1];
    }
    return NULL;
}

static const unsigned char *find6(const unsigned char *at, const unsigned char *end, int code, size_t *length) {
    while (at + 4 <= end) {
        size_t size = (size_t)number_at(at + 2, 2);
        if (at + 4 + size > end) {
            return NULL;
        }
        if ((int)number_at(at, 2) == code) {
            *length = size;
            return at + 4;
        }
        at += 4 + size;
    }
    return NULL;
}

/* The answer's message to the client: after a byte or the client's address from a circuit, inside a Relay-reply from a server. */
static const unsigned char *inner(const unsigned char *answer, size_t *length, struct dialect dialect) {
    size_t head = dialect.is_relay ? 0 : dialect.protocol == 4 ? 1 : 16;
    if (*length < head) {
        return NULL;
    }
    if (dialect.protocol == 6 && dialect.is_relay) {
        return *length < OPTIONS_OF_RELAY6 || answer[0] != 13 ? NULL : find6(answer + OPTIONS_OF_RELAY6, answer + *length, 9, length);
    }
    *length -= head;
    return answer + head;
}

long transaction_of(const unsigned char *answer, size_t length, struct dialect dialect) {
    const unsigned char *message = inner(answer, &length, dialect);
    if (message == NULL || length < (dialect.protocol == 4 ? OPTIONS4 : OPTIONS6)) {
        return -1;
    }
    return dialect.protocol == 4 ? (long)number_at(message + XID4, 4) : (long)number_at(message + 1, 3);
}

static enum meaning read4(const unsigned char *message, size_t length, struct client *client) {
    size_t size;
    const unsigned char *options = message + OPTIONS4, *end = message + length;
    const unsigned char *type = find4(options, end, 53, &size);
    if (type == NULL || size != 1) {
        return NOTHING;
    }
    if (*type == 6) {
        return REFUSED;
    }
    const unsigned char *server = find4(options, end, 54, &size);
    if (server == NULL || size != 4 || (*type != 2 && *type != 5)) {
        return NOTHING;
    }
    memcpy(client->server, server, 4);
    memcpy(client->address, message + YIADDR, 4);
    return *type == 2 ? OFFERED : LEASED;
}

/* Whether these options have a status other than Success. */
static bool is_refused(const unsigned char *options, const unsigned char *end) {
    size_t size;
    const unsigned char *status = find6(options, end, 13, &size);
    return status != NULL && size >= 2 && number_at(status, 2) != 0;
}

static enum meaning read6(const unsigned char *message, size_t length, struct client *client) {
    size_t size, server_size;
    const unsigned char *options = message + OPTIONS6, *end = message + length;
    const unsigned char *server = find6(options, end, 2, &server_size);
    if (server == NULL || server_size > LONGEST_SERVER || (message[0] != 2 && message[0] != 7)) {
        return NOTHING;
    }
    const unsigned char *ia = find6(options, end, 3, &size);
    const unsigned char *address = NULL;
    if (ia != NULL && size >= IN_IA) {
        size_t in_address;
        address = find6(ia + IN_IA, ia + size, 5, &in_address);
        address = address != NULL && in_address >= 24 && number_at(address + 20, 4) > 0 ? address : NULL;
    }
    if (address == NULL) {
        bool refused = is_refused(options, end) || (ia != NULL && size >= IN_IA && is_refused(ia + IN_IA, ia + size));
        return refused || message[0] == 2 ? REFUSED : RELEASED;
    }
    memcpy(client->server, server, server_size);
    client->server_length = server_size;
    memcpy(client->address, address, 16);
    return message[0] == 2 ? OFFERED : LEASED;
}

/* Whether the client's address is one of its circuit's pool, as scripts/measure/peers_servers.py has it. */
static bool is_in_pool(struct dialect dialect, const struct client *client) {
    if (dialect.protocol == 4) {
        return number_at(client->address, 4) - (0x0a00000a | (uint64_t)client->circuit << 8) < LARGEST_POOL;
    }
    return number_at(client->address, 8) == (0x20010db800000000 | (uint64_t)client->circuit)
        && number_at(client->address + 8, 8) - 0x100 < LARGEST_POOL;
}

enum meaning read_answer(const unsigned char *answer, size_t length, struct dialect dialect, struct client *client) {
    const unsigned char *message = inner(answer, &length, dialect);
    if (message == NULL) {
        return NOTHING;
    }
    enum meaning meaning = (dialect.protocol == 4 ? read4 : read6)(message, length, client);
    return (meaning == OFFERED || meaning == LEASED) && !is_in_pool(dialect, client) ? REFUSED : meaning;
}
