#include "options.h"

#include <inttypes.h>
#include <stdio.h>
#include <stdlib.h>
#include <string.h>

#include "complain.h"
#include "config.h"
#include "whole_number.h"

#define DEFAULT_RESEND 20
#define DEFAULT_LINGER 1000
#define DEFAULT_SPIN 50
#define MOST_MILLISECONDS 3600000 /* an hour */
#define MOST_MICROSECONDS 1000000

enum { HALF_OF_RESEND = -1 }; /* a hold that was not given */

static const char usage[] =
    "usage: totem-node --config FILE --own ID [flags]\n"
    "       totem-node --ring N --member ID=ADDRESS:PORT ... --own ID [flags]\n"
    "\n"
    "One station of a furnace ring over UDP. Posts come on standard input, a line each: '0 text' is agreed,\n"
    "'1 text' safe. Deliveries go to standard output: place, number, sender, service, content.\n"
    "\n"
    "  --config FILE    lines 'ring N' and 'member ID ADDRESS:PORT', in circulation order, lowest id first\n"
    "  --ring N         the ring's number, 1 to 2000000000\n"
    "  --member ID=ADDRESS:PORT   a member; as often as there are members, in circulation order\n"
    "  --own ID         which member this station is\n"
    "  --resend MS      resend the token when nothing was heard for so many milliseconds (20)\n"
    "  --hold MS        an idle ring's representative keeps the token so long (half of --resend; 0: not)\n"
    "  --spin US        while messages come, look for more so many microseconds before sleeping (50)\n"
    "  --linger MS      after the end of input, stop when nothing was delivered for so long (1000)\n"
    "  --drop PERCENT   lose so many of 100 arriving frames on purpose, 0 to 100 (0)\n"
    "  --seed N         which frames are lost (1)\n"
    "  --refusals       show at the end what arrived and was refused; SIGUSR1 shows it at any time\n"
    "  --count          don't print deliveries, count them: how many in how many seconds\n"
    "  --help           show this\n";

static uint64_t limited(const char *flag, const char *text, uint64_t least, uint64_t most)
{
    uint64_t value;

    if (!whole_number(text, least, most, &value))
        fail(EXIT_USAGE, "%s wants a whole number from %" PRIu64 " to %" PRIu64 ", not '%s'", flag, least,
             most, text);
    return value;
}

static instant milliseconds(const char *flag, const char *text, uint64_t least)
{
    return (instant)limited(flag, text, least, MOST_MILLISECONDS) * MILLISECOND;
}

static void add_member(struct options *o, const char *flag, const char *text)
{
    const char *equals = strchr(text, '=');
    char id[8];

    if (equals == NULL || (size_t)(equals - text) >= sizeof id)
        fail(EXIT_USAGE, "%s wants ID=ADDRESS:PORT, not '%s'", flag, text);
    memcpy(id, text, (size_t)(equals - text));
    id[equals - text] = '\0';
    members_add(&o->members, flag, id, equals + 1);
}

void options_ring(struct options *o, const char *where, const char *text)
{
    uint64_t value;

    if (o->has_ring)
        fail(EXIT_USAGE, "%s: the ring's number is given twice", where);
    if (!whole_number(text, 0, UINT32_MAX, &value))
        fail(EXIT_USAGE, "%s: '%s' is no ring number: it is 1 to 2000000000", where, text);
    o->ring = (uint32_t)value;
    o->has_ring = true;
}

static void take_own(struct options *o, const char *flag, const char *text)
{
    if (o->has_own)
        fail(EXIT_USAGE, "%s is given twice", flag);
    o->own = (uint16_t)limited(flag, text, 1, UINT16_MAX);
    o->has_own = true;
}

/* a flag that stands alone; false where there is none of that name */
static bool take_alone(struct options *o, const char *flag)
{
    if (strcmp(flag, "--refusals") == 0) {
        o->refusals = true;
    } else if (strcmp(flag, "--count") == 0) {
        o->count = true;
    } else if (strcmp(flag, "--help") == 0) {
        fputs(usage, stdout);
        exit(EXIT_SUCCESS);
    } else {
        return false;
    }
    return true;
}

/* a flag with its value (NULL where nothing stands behind it); false where there is none of that name */
static bool take_valued(struct options *o, const char *flag, const char *value)
{
    static const char *const names[] = {"--config", "--ring",  "--member", "--own",
                                        "--resend", "--hold", "--spin",   "--linger", "--drop", "--seed"};
    enum { CONFIG, RING, MEMBER, OWN, RESEND, HOLD, SPIN, LINGER, DROP, SEED, NAMES };
    int name = 0;

    while (name < NAMES && strcmp(flag, names[name]) != 0)
        name++;
    if (name == NAMES)
        return false;
    if (value == NULL)
        fail(EXIT_USAGE, "%s wants a value; --help shows the flags", flag);
    switch (name) {
    case CONFIG: config_read(o, value); break;
    case RING: options_ring(o, flag, value); break;
    case MEMBER: add_member(o, flag, value); break;
    case OWN: take_own(o, flag, value); break;
    case RESEND: o->resend = milliseconds(flag, value, 1); break;
    case HOLD: o->hold = milliseconds(flag, value, 0); break;
    case SPIN: o->spin = (instant)limited(flag, value, 0, MOST_MICROSECONDS) * MICROSECOND; break;
    case LINGER: o->linger = milliseconds(flag, value, 0); break;
    case DROP: o->drop = (unsigned)limited(flag, value, 0, 100); break;
    case SEED: o->seed = limited(flag, value, 0, UINT64_MAX); break;
    }
    return true;
}

static void ask_for_all(const struct options *o)
{
    if (!o->has_own)
        fail(EXIT_USAGE, "--own ID is missing: which member is this station? --help shows the flags");
    if (!o->has_ring)
        fail(EXIT_USAGE, "the ring's number is missing: --ring N, or 'ring N' in the file of --config");
    if (o->members.count == 0)
        fail(EXIT_USAGE, "there are no members: --member ID=ADDRESS:PORT, or 'member ID ADDRESS:PORT' in the "
                         "file of --config");
    if (o->hold >= o->resend)
        fail(EXIT_USAGE, "--hold must be below --resend, or the others take the token for lost");
}

void options_read(struct options *o, int argc, char **argv)
{
    memset(o, 0, sizeof *o);
    o->resend = DEFAULT_RESEND * MILLISECOND;
    o->hold = HALF_OF_RESEND;
    o->spin = DEFAULT_SPIN * MICROSECOND;
    o->linger = (instant)DEFAULT_LINGER * MILLISECOND;
    o->seed = 1;
    for (int i = 1; i < argc; i++) {
        if (take_alone(o, argv[i]))
            continue;
        if (!take_valued(o, argv[i], i + 1 < argc ? argv[i + 1] : NULL))
            fail(EXIT_USAGE, "there is no flag '%s'; --help shows the flags", argv[i]);
        i++;
    }
    if (o->hold == HALF_OF_RESEND)
        o->hold = o->resend / 2;
    ask_for_all(o);
}
