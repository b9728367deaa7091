#define _GNU_SOURCE
#include "address.h"

#include <arpa/inet.h>
#include <stdio.h>
#include <stdlib.h>
#include <string.h>

static bool read_port(const char *text, in_port_t *port)
{
    size_t digits = strspn(text, "0123456789");
    unsigned long number = strtoul(text, NULL, 10);
    *port = htons((in_port_t)number);
    return digits >= 1 && digits <= 5 && text[digits] == 0 && number <= 65535;
}

bool address_read(struct address *address, const char *text)
{
    char host[INET6_ADDRSTRLEN];
    in_port_t port;
    const char *colon = strrchr(text, ':');
    if (colon == NULL || !read_port(colon + 1, &port))
        return false;
    bool is_six = text[0] == '[' && colon[-1] == ']';
    size_t count = (size_t)(colon - text) - (is_six ? 2 : 0);
    if (count >= sizeof host)
        return false;
    memcpy(host, is_six ? text + 1 : text, count);
    host[count] = 0;
    if (is_six)
        *address = (struct address){.at.six = {.sin6_family = AF_INET6, .sin6_port = port}, .bytes = sizeof address->at.six};
    else
        *address = (struct address){.at.four = {.sin_family = AF_INET, .sin_port = port}, .bytes = sizeof address->at.four};
    return inet_pton(address->at.any.sa_family, host, is_six ? (void *)&address->at.six.sin6_addr : &address->at.four.sin_addr) == 1;
}

void address_spell(const struct address *address, char text[ADDRESS_BYTES])
{
    char host[INET6_ADDRSTRLEN] = "";
    bool is_six = address->at.any.sa_family == AF_INET6;
    const void *at = is_six ? (const void *)&address->at.six.sin6_addr : &address->at.four.sin_addr;
    in_port_t port = is_six ? address->at.six.sin6_port : address->at.four.sin_port;
    inet_ntop(is_six ? AF_INET6 : AF_INET, at, host, sizeof host);
    snprintf(text, ADDRESS_BYTES, "%s%s%s:%u", is_six ? "[" : "", host, is_six ? "]" : "", (unsigned)ntohs(port));
}
