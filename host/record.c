#include "record.h"

#include <stdio.h>
#include <stdlib.h>

algolmallet_record *make_room_for_record(void)
{
    size_t align = algolmallet_record_align();
    size_t rounded = (algolmallet_record_size() + align - 1) / align * align;
    algolmallet_record *record = aligned_alloc(align, rounded);
    if (record == NULL) {
        perror("host");
        exit(1);
    }
    return record;
}
