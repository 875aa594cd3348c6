#include "trials.h"

#include <string.h>

#include "making.h"
#include "words.h"

/* no more new messages: the others have broadcast as many as a round may have */
enum { FULL_ROUND = 24 };

const char *const fill_names[FILLS] = {"fresh", "half full", "full"};

static void founding(struct making *m)
{
    m->t.call = FOUND;
    wants(m, TOTEM_FOUNDED, TOTEM_TOKEN_LEN, 0);
}

static void post(struct making *m)
{
    m->t.call = POST;
    memcpy(m->t.frame, some_content(content_size, 1).bytes, content_size);
    m->t.size = content_size;
    wants(m, TOTEM_POSTED, 0, 0);
}

static void kept_and_delivered(struct making *m)
{
    hand_message(m, m->s.level + 1, TOTEM_AGREED);
    wants(m, TOTEM_KEPT, 0, frame_size());
}

static void kept(struct making *m)
{
    hand_message(m, m->s.level + 1, TOTEM_SAFE);
    wants(m, TOTEM_KEPT, 0, 0);
}

/* all that is held waits for message 1 */
static void gap_closed(struct making *m)
{
    for (unsigned i = 0; i < m->s.held_count; i++)
        m->s.held[i].number++;
    m->s.level = m->s.delivered = 0;
    hand_message(m, 1, TOTEM_AGREED);
    wants(m, TOTEM_KEPT, 0, (m->s.held_count + 1u) * frame_size());
}

static void had(struct making *m)
{
    hand_message(m, 1, TOTEM_AGREED);
    wants(m, TOTEM_HAD, 0, 0);
}

static void ahead(struct making *m)
{
    hand_message(m, m->s.safe + HELD_PLACES + 1, TOTEM_AGREED);
    wants(m, TOTEM_AHEAD, 0, 0);
}

static void idle_visit(struct making *m)
{
    hand_token(m, next_token(m, FULL_ROUND));
    wants(m, TOTEM_ACCEPTED, TOKEN_LEAST, 0);
}

static void visit_with_new(struct making *m)
{
    hand_token(m, next_token(m, 0));
    wants(m, TOTEM_ACCEPTED, 8 * frame_size() + TOKEN_LEAST, 8 * frame_size());
}

static void visit_with_repeats(struct making *m)
{
    struct token t = next_token(m, FULL_ROUND);

    for (t.count = 0; t.count < REQUEST_PLACES; t.count++)
        t.requests[t.count] = t.count + 1;
    hand_token(m, t);
    wants(m, TOTEM_ACCEPTED, REQUEST_PLACES * frame_size() + TOKEN_LEAST, 0);
}

/* the ring has 16 messages more; this station and 9 lack them */
static struct token behind_token(const struct making *m)
{
    struct token t = next_token(m, FULL_ROUND);

    t.highest += REQUEST_PLACES;
    t.blocker = 9;
    return t;
}

static void visit_with_missing(struct making *m)
{
    hand_token(m, behind_token(m));
    wants(m, TOTEM_ACCEPTED, TOKEN_LEAST + 4 * REQUEST_PLACES, 0);
}

/* 9 has asked for them */
static void visit_with_requests(struct making *m)
{
    struct token t = behind_token(m);

    for (t.count = 0; t.count < REQUEST_PLACES; t.count++)
        t.requests[t.count] = m->s.level + t.count + 1;
    hand_token(m, t);
    wants(m, TOTEM_ACCEPTED, TOKEN_LEAST + 4 * REQUEST_PLACES, 0);
}

/* with this visit all held ones are known to be received by all */
static void visit_letting_go(struct making *m)
{
    m->s.aru = m->s.level;
    idle_visit(m);
}

static void visit_delivering(struct making *m)
{
    for (unsigned i = 0; i < m->s.held_count; i++)
        m->s.held[i].service = TOTEM_SAFE;
    m->s.delivered = 0;
    visit_letting_go(m);
    m->t.wanted.deliveries = (uint16_t)(m->s.held_count * frame_size());
}

static void resend(struct making *m)
{
    visited(m);
    m->t.call = RESEND;
    wants(m, TOTEM_RESENT, TOKEN_LEAST, 0);
}

/* by the last post's place, in use or not */
static void not_whole(struct making *m)
{
    kept(m);
    m->s.posts[POST_PLACES - 1].service = 2;
    wants_refusal(m, TOTEM_NOT_WHOLE);
}

static void wrong_length(struct making *m)
{
    kept(m);
    m->t.size--;
    wants_refusal(m, TOTEM_WRONG_LENGTH);
}

static void other_kind(struct making *m)
{
    kept(m);
    put(m->t.frame + T_KIND, 2, 3);
    wants_refusal(m, TOTEM_OTHER_KIND);
}

static void malformed(struct making *m)
{
    hand_message(m, m->s.level + 1, 2);
    wants_refusal(m, TOTEM_MALFORMED);
}

static void other_ring(struct making *m)
{
    kept(m);
    put(m->t.frame + T_RING, 4, m->s.ring + 1);
    wants_refusal(m, TOTEM_OTHER_RING);
}

static void not_member(struct making *m)
{
    kept(m);
    put(m->t.frame + M_SENDER, 2, 8);
    wants_refusal(m, TOTEM_NOT_MEMBER);
}

static void other_addressee(struct making *m)
{
    struct token t = next_token(m, 0);

    t.addressee = 9;
    hand_token(m, t);
    wants_refusal(m, TOTEM_OTHER_ADDRESSEE);
}

static void old_token(struct making *m)
{
    idle_visit(m);
    visited(m);
    wants_refusal(m, TOTEM_OLD_TOKEN);
}

static void last_token(struct making *m)
{
    struct token t = next_token(m, 0);

    t.number = TOTEM_MOST_NUMBER;
    hand_token(m, t);
    wants_refusal(m, TOTEM_LAST_TOKEN);
}

static void below_held(struct making *m)
{
    struct token t = next_token(m, 0);

    t.highest = t.aru = m->s.level - 1;
    hand_token(m, t);
    wants_refusal(m, TOTEM_BELOW_HELD);
}

static const struct kind {
    const char *name;
    void (*make)(struct making *m);
    unsigned least_held, most_held, least_posts, most_posts;
} kinds[] = {
    {"founding", founding, 0, 0, 0, 0},
    {"post", post, 0, 32, 0, 15},
    {"message, kept and delivered", kept_and_delivered, 0, 31, 0, 16},
    {"message, kept (safe)", kept, 0, 31, 0, 16},
    {"message, a gap closed, all delivered", gap_closed, 8, 31, 0, 16},
    {"message, had", had, 1, 32, 0, 16},
    {"message, ahead", ahead, 0, 32, 0, 16},
    {"visit, nothing new", idle_visit, 0, 32, 0, 16},
    {"visit, 8 new messages", visit_with_new, 0, 24, 8, 16},
    {"visit, 16 repeats", visit_with_repeats, 16, 32, 0, 16},
    {"visit, 16 missing asked for", visit_with_missing, 0, 16, 0, 16},
    {"visit, 16 requests left", visit_with_requests, 0, 16, 0, 16},
    {"visit, held ones let go", visit_letting_go, 8, 32, 0, 16},
    {"visit, held ones (safe) delivered and let go", visit_delivering, 8, 32, 0, 16},
    {"resend", resend, 0, 32, 0, 16},
    {"refused 2: record not whole", not_whole, 0, 31, 0, 16},
    {"refused 10: wrong length", wrong_length, 0, 31, 0, 16},
    {"refused 11: other kind", other_kind, 0, 31, 0, 16},
    {"refused 12: malformed", malformed, 0, 31, 0, 16},
    {"refused 13: other ring", other_ring, 0, 31, 0, 16},
    {"refused 14: not a member", not_member, 0, 31, 0, 16},
    {"refused 15: token for another", other_addressee, 0, 32, 0, 16},
    {"refused 16: token repeated", old_token, 0, 32, 0, 16},
    {"refused 17: the last token", last_token, 0, 32, 0, 16},
    {"refused 18: below what is held", below_held, 1, 32, 0, 16},
};

size_t trial_kinds(void)
{
    return sizeof kinds / sizeof *kinds;
}

const char *trial_name(size_t kind)
{
    return kinds[kind].name;
}

static unsigned within(unsigned value, unsigned least, unsigned most)
{
    return value < least ? least : value > most ? most : value;
}

struct trial trial_of(size_t kind, enum fill fill)
{
    const struct kind *k = &kinds[kind];
    struct making m;

    memset(&m, 0, sizeof m);
    m.s = filled(within(HELD_PLACES / 2 * fill, k->least_held, k->most_held),
                 within(POST_PLACES / 2 * fill, k->least_posts, k->most_posts));
    k->make(&m);
    station_bytes(&m.s, m.t.record);
    return m.t;
}
