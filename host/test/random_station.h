/* Random whole stations, and random changes of a record's fields to values near their edges. */
#ifndef HOST_RANDOM_STATION_H
#define HOST_RANDOM_STATION_H

#include "station.h"

struct station random_station(void);

/* a value near this one, or near an edge of some field's range */
uint32_t near_edge(uint32_t value);

/* every other time the panel's byte is then the count again */
void change_a_field(uint8_t record[RECORD_END]);

#endif
