/* How this library was built. The Makefile asks the archive of the store whether it is proved. */
#include "vahondrisa.h"

const char *vah_build(void)
{
#ifdef VAH_UNPROVED
	return VAH_RELEASE " unproved";
#else
	return VAH_RELEASE " proved";
#endif
}
