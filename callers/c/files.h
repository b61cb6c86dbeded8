/* What files.c and parts.c share: how the files of a folder are opened and refused. */
#ifndef VAH_FILES_H
#define VAH_FILES_H
#include "internal.h"

/* Where an opening is: the folder, how its files are opened, where its refusal's words go, and the code. */
struct opening { const char *path; int flags; char *text; size_t size; int code, why; };

/* Refuses it in words, or by the call of the system that failed; -1. */
int refuse_files(struct opening *o, int code, const char *words);
int refuse_system(struct opening *o);

/* The path once more, whose bytes may be changed; NULL where it is refused. */
char *own_path(struct opening *o);

/* Makes the folder where there is none, and those above it; brings all of them to the disk, so that a power cut takes none. */
int make_folders(struct opening *o, char *path);
int sync_folders(struct opening *o, char *path);

/* Opens the folder three times: as long as these stand, nothing that is opened gets the descriptor of a standard stream. */
int open_folders(struct opening *o, int *folders);

/* A file that was opened; -1 where it was not. It must not have the descriptor of a standard stream: what the program prints there would be written over
 * the store. */
int not_standard(struct opening *o, int fd);

/* Closes those that are open. */
void close_all(const int *files, int count);

/* In tests, whether a call on the files of a copy is to fail. */
int is_copy_to_fail(struct copy *copy);

#endif
