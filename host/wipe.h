/* Memory that has held what is a patient's is wiped when it has been used (docs/personal-data.md). */
#ifndef WIPE_H
#define WIPE_H

#include <stddef.h>

/* Makes octets zero. No compiler takes that out. */
void wipe(void *octets, size_t length);

/* The same for the stack that the calls before this one have used, as far down as any of them goes. */
void wipe_stack(void);

#endif
