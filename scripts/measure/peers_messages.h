/* The messages of DHCP clients, as a relay sends them to a server or as a client sends them to a circuit of `accessd`, and what
   their answers say. For peers_load.c. */
#ifndef PEERS_MESSAGES_H
#define PEERS_MESSAGES_H

#include <stdbool.h>
#include <stddef.h>

enum {
    LONGEST_MESSAGE = 1280,
    LONGEST_SERVER = 130,
};

/* What a client sends. */
enum kind { ASK, TAKE, RENEW, RELEASE };

/* What an answer means to it. */
enum meaning { NOTHING, OFFERED, LEASED, RELEASED, REFUSED };

struct client {
    int circuit;
    /* two bytes, which stand in its hardware address */
    unsigned number;
    /* the address that it was offered or leased, and the identifier of the server, which may be a DUID */
    unsigned char address[16], server[LONGEST_SERVER];
    size_t server_length;
};

struct dialect {
    /* 4 or 6 */
    int protocol;
    /* whether to speak as a relay, or as a client on a circuit */
    bool is_relay;
};

/* Writes the message of this transaction number, 24 bits, which asks for a lease of so many seconds. Returns its length. */
size_t write_message(unsigned char *message, struct dialect dialect, enum kind kind, const struct client *client, unsigned transaction,
                     unsigned seconds);

/* The transaction number of an answer, or -1 where it is none. */
long transaction_of(const unsigned char *answer, size_t length, struct dialect dialect);

/* What the answer means, of which the client keeps address and server. An address outside its circuit's pool is as good as none. */
enum meaning read_answer(const unsigned char *answer, size_t length, struct dialect dialect, struct client *client);

#endif
