/* The run files and logs to measure with. */
#ifndef INPUTS_H
#define INPUTS_H

#include <stddef.h>
#include <stdint.h>

enum { FILE_MOST = 4880, WORST = 8 };

/* A file of so many processes, with so many calls each by chance of the codes named, and a random schedule. */
size_t make_file(uint8_t *file, unsigned processes, unsigned calls, const char *codes, unsigned steps);

/* Logs that are hard for one judge or another, of up to 256 entries; all are accepted. */
const char *worst_name(unsigned which);
size_t make_worst(uint8_t *log, unsigned which, unsigned entries);

#endif
