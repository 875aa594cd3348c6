/* What each call is to answer, from the specification's questions, and what posting does to the bytes. */
#ifndef HOST_EXPECTED_H
#define HOST_EXPECTED_H

#include <stddef.h>
#include <stdint.h>

#include "totem.h"

/* answers, written as the specification's numbers */
totem_answer refused(unsigned number);
totem_answer founded(void);
totem_answer posted(void);
totem_answer resent(size_t bytes);

/* the first question that is answered 'no', or 0 */
unsigned founding_refusal(size_t station_len, const uint8_t *members, size_t members_len, uint16_t own,
                          uint32_t ring, size_t token_len);
unsigned posting_refusal(const uint8_t *station, size_t station_len, uint16_t service, size_t content_len);
unsigned resending_refusal(const uint8_t *station, size_t station_len, size_t frames_len);

/* a whole record's bytes with one post more */
void put_post(uint8_t *record, uint16_t service, const uint8_t *content, size_t content_len);

#endif
