/* What ao-shim gives up, once it runs. */
#ifndef RIGHTS_H
#define RIGHTS_H

#include <stdbool.h>

/* Gives up each capability but CAP_NET_ADMIN, for good, and leaves no core file with keys. False, with a line on
 * standard error, where that can't be done. */
bool drop_capabilities(void);

/* From now on only the system calls that a running ao-shim needs are answered; others fail with EPERM. Nothing can be
 * started, no socket made, no memory made executable. */
bool filter_calls(void);

#endif
