/* Where a socket listens, or is connected from: ADDRESS:PORT of IPv4, [ADDRESS]:PORT of IPv6. */
#ifndef ADDRESS_H
#define ADDRESS_H

#include <netinet/in.h>
#include <stdbool.h>
#include <sys/socket.h>

struct address {
    union {
        struct sockaddr any;
        struct sockaddr_in four;
        struct sockaddr_in6 six;
    } at;
    socklen_t bytes;
};

enum { ADDRESS_BYTES = INET6_ADDRSTRLEN + sizeof "[]:65535" }; /* of its text */

/* Reads an address, and a port of at most five digits, from 0 to 65535. False where a text is none. */
bool address_read(struct address *address, const char *text);

/* Puts its text in place. */
void address_spell(const struct address *address, char text[ADDRESS_BYTES]);

#endif
