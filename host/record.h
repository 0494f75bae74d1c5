/* Memory for a record. The library says how much; what is in it is the library's own matter. */
#ifndef HOST_RECORD_H
#define HOST_RECORD_H

#include "algolmallet.h"

/* To be freed by the caller. Where there is no memory, the program ends with status 1. */
algolmallet_record *make_room_for_record(void);

#endif
