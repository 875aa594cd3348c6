#include "members.h"

#include <arpa/inet.h>
#include <netdb.h>
#include <stdio.h>
#include <string.h>

#include "complain.h"
#include "whole_number.h"

const char *address_text(const struct sockaddr_in *address, char text[ADDRESS_TEXT])
{
    char host[INET_ADDRSTRLEN] = "?";

    inet_ntop(AF_INET, &address->sin_addr, host, sizeof host);
    snprintf(text, ADDRESS_TEXT, "%s:%u", host, ntohs(address->sin_port));
    return text;
}

/* the IPv4 address of a host that is named by numbers or by a name */
static struct in_addr host_address(const char *where, const char *host)
{
    struct addrinfo hints, *found = NULL;
    struct sockaddr_in address;
    int problem;

    memset(&hints, 0, sizeof hints);
    hints.ai_family = AF_INET;
    hints.ai_socktype = SOCK_DGRAM;
    problem = getaddrinfo(host, NULL, &hints, &found);
    if (problem != 0)
        fail(EXIT_USAGE, "%s: no IPv4 address is known for '%s': %s", where, host, gai_strerror(problem));
    memcpy(&address, found->ai_addr, sizeof address);
    freeaddrinfo(found);
    return address.sin_addr;
}

static struct sockaddr_in parsed_address(const char *where, const char *text)
{
    struct sockaddr_in address;
    const char *colon = strrchr(text, ':');
    char host[256];
    uint64_t port;

    if (colon == NULL || colon == text || (size_t)(colon - text) >= sizeof host)
        fail(EXIT_USAGE, "%s: '%s' is not ADDRESS:PORT", where, text);
    if (!whole_number(colon + 1, 1, 65535, &port))
        fail(EXIT_USAGE, "%s: '%s' is no port: a port is 1 to 65535", where, colon + 1);
    memcpy(host, text, (size_t)(colon - text));
    host[colon - text] = '\0';

    memset(&address, 0, sizeof address);
    address.sin_family = AF_INET;
    address.sin_port = htons((uint16_t)port);
    address.sin_addr = host_address(where, host);
    return address;
}

void members_add(struct members *m, const char *where, const char *id, const char *address)
{
    uint64_t value;

    if (m->count == MOST_LISTED)
        fail(EXIT_USAGE, "%s: more than %d members are listed", where, MOST_LISTED);
    if (!whole_number(id, 0, UINT16_MAX, &value))
        fail(EXIT_USAGE, "%s: '%s' is no station's id: an id is 1 to 65535", where, id);
    m->ids[m->count] = (uint16_t)value;
    m->addresses[m->count] = parsed_address(where, address);
    for (unsigned i = 0; i < m->count; i++)
        if (memcmp(&m->addresses[i], &m->addresses[m->count], sizeof m->addresses[i]) == 0)
            fail(EXIT_USAGE, "%s: station %u has the address %s already", where, m->ids[i], address);
    m->count++;
}

unsigned members_place(const struct members *m, uint16_t id)
{
    unsigned place = 0;

    while (place < m->count && m->ids[place] != id)
        place++;
    return place;
}
