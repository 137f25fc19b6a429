/* Mending, case by case, for the independent one and for the library. */
#ifndef MEND_CASES_H
#define MEND_CASES_H

#include "reference.h"

/* As ref_mend. */
typedef uint32_t mender(ref_kind kind, uint8_t *bytes, size_t len, uint16_t *list, size_t room, size_t *count);
/* Takes note of what holds or not. */
typedef void mend_judge(int holds, const char *what);

void run_mend_cases(mender *mend, mend_judge *judge);

#endif
