/* What the tests share. */
#ifndef TEST_H
#define TEST_H
#include "vahondrisa.h"
#include <stdio.h>
#include <stdlib.h>
#include <string.h>

/* Ends the test where an expression has not the value that is wanted. */
#define IS(it, wanted) do { int is_ = (it), is_wanted_ = (wanted); if (is_ != is_wanted_) { \
	fprintf(stderr, "%s:%d: %s is %d (%s), and not %d; %s\n", __FILE__, __LINE__, #it, is_, vah_strerror(is_), is_wanted_, vah_last_error()); \
	exit(1); } } while (0)
#define OK(it) IS(it, VAH_OK)
#define HOLDS(it) do { if (!(it)) { fprintf(stderr, "%s:%d: %s does not hold; %s\n", __FILE__, __LINE__, #it, vah_last_error()); exit(1); } } while (0)

#endif
