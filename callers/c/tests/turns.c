/* Who may begin now: what the proved library answers over tables of all small numbers, beside the rule in other words. turns */
#include "test.h"
#include "internal.h"

enum { ROWS = 3, PATIENCE = 2 };

/* Whether one that asks waits for a row. */
static int is_waited_for(const struct going *row, const struct asker *asker, uint64_t came)
{
	if (!row->number || (asker->thread && row->thread == asker->thread))
		return 0;
	return row->seen == UINT64_MAX || asker->tick - row->seen < PATIENCE || (asker->tick >= came && asker->tick - came < PATIENCE);
}

/* What is answered of one table and one that asks. */
static void is_answered(const struct going *rows, const struct asker *asker)
{
	int own = 0;
	uint64_t oldest[2] = { 0, 0 }, came[2] = { asker->came, 0 };
	for (int i = 0; i < ROWS; i++) {
		own |= asker->thread && rows[i].number && rows[i].thread == asker->thread;
		for (int k = 0; k < 2; k++)
			if (is_waited_for(&rows[i], asker, came[k]) && (!oldest[k] || rows[i].number < oldest[k]))
				oldest[k] = rows[i].number;
	}
	HOLDS(im_has_own(rows, ROWS, asker->thread) == own);
	for (int k = 0; k < 2; k++)
		HOLDS(im_oldest(rows, ROWS, asker, came[k]) == oldest[k]);
	for (uint64_t first = 0; first < 3; first++) {
		int goes = im_may_begin(rows, ROWS, first, asker);
		if (own)
			HOLDS(goes);
		else if (!first)
			HOLDS(goes == (!asker->mine || !oldest[0] || oldest[0] > asker->mine));
		else
			HOLDS(goes == (first == asker->ticket && !oldest[1]));
	}
}

/* Each row is absent, or of one of two threads, and seen now, lately, long ago, or held. */
static void set_row(struct going *row, unsigned n, uint64_t number)
{
	static const uint64_t seen[] = { 9, 8, 3, UINT64_MAX };
	*row = (struct going){ .number = n ? number : 0, .seen = seen[n % 4], .thread = 1 + n / 4 % 2 };
}

static void all_tables(void)
{
	for (unsigned n = 0; n < 9 * 9 * 9; n++) {
		struct going rows[ROWS];
		set_row(&rows[0], n % 9, 5);
		set_row(&rows[1], n / 9 % 9, 3);
		set_row(&rows[2], n / 81, 8);
		for (uint64_t mine = 0; mine < 10; mine += 2)
			for (uint64_t came = 1; came < 10; came += 4)
				for (uint64_t thread = 0; thread < 4; thread++)
					for (uint64_t ticket = 0; ticket < 3; ticket++)
						is_answered(rows, &(struct asker){ ticket, mine, came, thread, .tick = 9, .patience = PATIENCE });
	}
}

/* Who is to be first: of those that gave way four times and wait, the one that began the earliest. */
static void the_first(void)
{
	for (unsigned n = 0; n < 4096; n++) {
		struct going rows[ROWS] = { { .number = 0 } };
		uint64_t had = 0;
		for (int i = 0; i < ROWS; i++) {
			unsigned bits = n >> 4 * i & 15;
			rows[i].had = bits & 3 ? (bits & 3) * 10 + (unsigned)i : 0;
			rows[i].agains = 2 + bits / 4;
			if (rows[i].had && rows[i].agains > 3 && (!had || rows[i].had < had))
				had = rows[i].had;
		}
		HOLDS(im_earliest(rows, ROWS) == had);
	}
}

int main(void)
{
	const uint64_t most = UINT64_MAX, at[] = { 0, 1, 2, 3, most - 1, most };
	all_tables();
	the_first();
	for (int i = 0; i < 6; i++)
		for (int k = 0; k < 6; k++)
			for (int j = 0; j < 6; j++)
				HOLDS(im_is_left_alone(at[i], at[k], at[j]) == (at[j] <= at[i] && at[k] <= at[i] - at[j]));
	return 0;
}
