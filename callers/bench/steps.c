/* The work of bench.c in one thread by steps of the proved library alone, without locks, waits and masks of signals: what the layer of C adds to them.
 * steps FOLDER */
#define _GNU_SOURCE
#include "internal.h"
#include "work.h"
#include <string.h>

static struct handle *handle;
static struct call call;

static void made(uint32_t step, uint64_t key, uint64_t number, uint32_t wanted)
{
	call.step = step;
	call.number = number;
	call.key_len = 8;
	memcpy(call.key, &key, 8);
	im_step(handle, &call);
	IS((int)call.word, (int)wanted);
}

static void begin(void)
{
	made(BEGIN, 0, 0, 0);
	call.txn = call.number;
}

static void commit(void) { made(COMMIT, 0, 0, COMMITTED); }

static double wall, processor;
static void start(void)
{
	wall = on(CLOCK_MONOTONIC);
	processor = on(CLOCK_PROCESS_CPUTIME_ID);
}

int main(int argc, char **argv)
{
	static struct device device;
	char text[512];
	vah_config config = VAH_CONFIG_INIT;
	if (argc < 2) return 1;
	OK(vah_device_open(&device, argv[1], text, sizeof text));
	if (!(handle = malloc(im_size()))) return 1;
	im_init(handle);
	vah_device_serve(&device);
	struct store_opening asked = { .frames = config.frames, .max_pages = config.max_pages, .redo_bytes = config.redo_bytes, .log_bytes = config.log_bytes };
	im_open(handle, &asked);
	IS((int)asked.fault, 0);

	start();
	for (uint64_t i = 0; i < KEYS; i += 64) {
		begin();
		for (uint64_t j = i; j < i + 64; j++) made(INSERT, mix(j), j, INSERTED);
		commit();
	}
	tell("steps", 1, "inserts, 64 a commit", KEYS, wall, processor);
	start();
	for (uint64_t i = 0; i < COMMITS; i++) {
		begin();
		made(INSERT, mix(1000000 + i), i, INSERTED);
		commit();
	}
	tell("steps", 1, "inserts, 1 a commit", COMMITS, wall, processor);
	start();
	for (uint64_t i = 0; i < READS; i += 100) {
		begin();
		for (uint64_t j = i; j < i + 100; j++) {
			uint64_t wanted = mix(j * 7) % KEYS;
			made(FETCH, mix(wanted), 0, FOUND);
			if (call.number != wanted) exit(2);
		}
		commit();
	}
	tell("steps", 1, "look-ups, 100 a transaction", READS, wall, processor);
	start();
	for (uint64_t i = 0; i < SCANS; i++) {
		begin();
		call.limit = LIMIT;
		call.hi_len = 8;
		memset(call.hi, 0xff, 8);
		made(SCAN, mix(i), 0, ENTRIES);
		commit();
	}
	tell("steps", 1, "scans of 100", SCANS, wall, processor);

	call.step = CLOSE;
	im_step(handle, &call);
	vah_device_close(&device);
	return call.word != DONE;
}
