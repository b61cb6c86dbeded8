/* What the fragments in C of docs/GUIDE.md stand in: the functions and names that the page speaks of. */
#define _GNU_SOURCE
#include <stdio.h>
#include <unistd.h>
#define main main_of_recipes
#include "recipes.c"
#undef main

int block(vah_store *store, vah_txn *txn, const char *prefix, size_t len, size_t lo_len, size_t hi_len, int (*next)(void *with, vah_ref *entries), void *with);

int block(vah_store *store, vah_txn *txn, const char *prefix, size_t len, size_t lo_len, size_t hi_len, int (*next)(void *with, vah_ref *entries), void *with)
{
	vah_entry entries[VAH_SCAN_MAX];
	unsigned char key[VAH_KEY_MAX] = { 0 }, lo[VAH_KEY_MAX] = { 0 }, hi[VAH_KEY_MAX] = { 0 }, value[4096] = { 0 };
	uint64_t rid = 1, previous;
	int was_there;
	size_t n, size = sizeof value;
	{
		/* @block@ */
	}
	return 0;
}
