#include "making.h"

unsigned content_size = CONTENT_ROOM;

struct station filled(unsigned held, unsigned posts)
{
    static const uint16_t members[] = {3, 7, 9};
    struct station s = fresh_station(7, 4, 3, members);

    for (uint32_t n = 1; n <= held; n++)
        hold(&s, n, members[n % 3], TOTEM_AGREED, some_content(content_size, n));
    for (unsigned i = 0; i < posts; i++)
        add_post(&s, TOTEM_AGREED, some_content(content_size, 100 + i).bytes, content_size);
    s.level = s.delivered = held;
    return s;
}

size_t frame_size(void)
{
    return M_CONTENT + content_size;
}

void wants(struct making *m, unsigned outcome, size_t written, size_t delivered)
{
    m->t.wanted = (totem_answer){.outcome = (uint16_t)outcome, .frames = (uint16_t)written,
                                 .deliveries = (uint16_t)delivered};
}

void wants_refusal(struct making *m, unsigned number)
{
    m->t.wanted = (totem_answer){.refusal = (uint16_t)number};
}

void hand_message(struct making *m, uint32_t number, uint16_t service)
{
    struct held message = {number, 3, service, some_content(content_size, number)};

    m->t.call = ARRIVE;
    m->t.size = message_bytes(&m->s, &message, m->t.frame);
}

struct token next_token(const struct making *m, uint16_t round)
{
    struct token t = first_token(m->s.ring, 3);

    t.addressee = m->s.own;
    t.number = m->s.token_number + 1;
    t.highest = t.aru = m->s.level;
    t.round = round;
    return t;
}

void hand_token(struct making *m, struct token t)
{
    m->t.call = ARRIVE;
    m->t.size = token_bytes(&t, m->t.frame);
}

void visited(struct making *m)
{
    m->s.token = next_token(m, 0);
    m->s.token.number++;
    m->s.token.addressee = 9;
    m->s.token_number = m->s.token.number;
    m->s.aru = m->s.level;
    m->s.leave = true;
}
