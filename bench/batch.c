/* Many changes in one save: what they cost beside one change, and thirty beside thirty saves. */
#include "batch.h"
#include "bench.h"

#include <stdio.h>

/* By rounds a batch is a change at the lowest of its places; the bar is a tenth above that. */
void changes(const uint8_t *message)
{
    static const struct raced SAVES[] = {{"change at 0", archive_change_first, NULL, 0, 0},
                                         {"batch of 64", archive_batch_64, "1.10", 1.10, 0}};
    static const struct raced THIRTY[] = {{"batch of 30", archive_batch_30, NULL, 0, 0}, {"30 changes", archive_30_changes, NULL, 0, 0}};

    printf("\nBatch of 64 changes in 1,024 records, cycles per call and their ratio to one change at its lowest place, best timing of each,"
           " taken in turns\n\n");
    race_sheets(message, SAVES, COUNT(SAVES), 1000);
    printf("\nThirty changes in 1,024 records, cycles for all of them and their ratio to one batch, best timing of each, taken in turns\n\n");
    race_sheets(message, THIRTY, COUNT(THIRTY), 100);
}
