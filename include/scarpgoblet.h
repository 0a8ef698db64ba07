/* The bench and the judge, for a host program in C. Link with libscarpgoblet.a (x86-64): `rt lib` in crates/scarpgoblet/ makes it, in
 * crates/scarpgoblet/out/.
 *
 * All five functions answer for any bytes and any lengths, and keep nothing between calls. No pointer may be null, not even where
 * its length is 0. */
#ifndef SCARPGOBLET_H
#define SCARPGOBLET_H

#include <stddef.h>
#include <stdint.h>

#ifdef __cplusplus
extern "C" {
#endif

/* A log has 5 bytes and 12 for each entry, and a file has at most 256 calls: a buffer of this many bytes is long enough for every
 * file. */
#define SCARPGOBLET_LOG_MOST 3077

/* Runs the run file of `file_len` bytes at `file`. Writes its log at the front of the `log_len` bytes at `log`, and gives the number of
 * bytes written; the bytes after them stay as they were. No two of `file`, `log`, `report` and `table` may overlap. Written on return
 * are:
 *
 * report[0]: the number: 0 where the file was run, 1 to 7 where the file is refused, 8 where the log's bytes are fewer than
 *            5 + 12 * the file's calls; no other;
 * report[1]: entries, the calls that ended, which are the entries of the log;
 * report[2]: steps, those of the closing among them;
 * report[3]: gone-round takes: successful takes whose queue was reset since their first step;
 * table[67 * q], q from 0 to 7: queue q after the closing: bottom, top, tag (always 0 where the file's W is 0, for boxes with no
 *            tag) and 64 slots, unused ones 0; all 0 for a queue that no process of the file owns.
 *
 * A refusal gives 0, leaves every byte at `log` as it was, and sets all of report but its number, and all of table, to 0. */
size_t scarpgoblet_run(const uint8_t *file, size_t file_len, uint8_t *log, size_t log_len, uint16_t report[4], uint16_t table[536]);

/* Judges the log of `length` bytes at `log`, and writes to none of them: 0 where it is accepted, 11 to 13 where it is no log, 14 to 19
 * where an entry breaks rule 1 to 6. The result in an entry, its fourth byte, is 0 for NIL, 1 for done or a node, 2 for FULL, and 3 for
 * NIL of a top pop that lost a race (at T4); a log with 0 in place of 3 gets the same number. */
uint32_t scarpgoblet_judge(const uint8_t *log, size_t length);

/* The entry at fault, from 0, where the number is 14 to 19; else 0. */
uint32_t scarpgoblet_judge_entry(const uint8_t *log, size_t length);

/* The nodes that the log of `length` bytes at `log` leaves in `queue`, by the moments of its calls: the jobs still queued at its end. No
 * two of `log`, `count` and `nodes` may overlap, and nothing is written to `log`. Gives
 *
 * 0:        count[0] is how many nodes are left, at most 256; they stand at the front of `nodes`, top first, and 0 after them;
 * 11 to 16: the judge's number: it is no log, or an entry breaks rule 1, 2 or 3, so that its calls have no order. count[0] and all of
 *           `nodes` are 0.
 *
 * Of the log of a run without gone-round takes they are what the slots from top up to bottom hold in the run's table. A log with an
 * entry that breaks a later rule leaves what its calls make of the queue: a pop of an empty queue takes nothing. */
uint32_t scarpgoblet_left(const uint8_t *log, size_t length, uint8_t queue, uint16_t count[1], uint16_t nodes[256]);

/* Runs and judges the files of the rack of `rack_len` bytes at `rack`: a count in two bytes, then each file after its length in two
 * bytes, high byte first, and nothing after them. No two of `rack`, `log` and `replies` may overlap. Gives
 *
 * 0:  every file has its reply, a refused one too;
 * 21: the count or a length runs past the end of the rack, or bytes remain after the last file;
 * 22: the `replies_len` bytes at `replies` are fewer than 8 * the count.
 *
 * 21 is asked before 22, both before any file is run, and both leave every byte at `log` and `replies` as it was. With 0 the reply to
 * file k, from 0, stands at replies[8 * k]: its number as in report[0] of scarpgoblet_run (one byte), its entries, steps and gone-round
 * takes (two bytes each, high byte first), and the judge's number of its log (one byte, 0 for a refused file). The bytes after the last
 * reply stay as they were.
 *
 * Each file in turn uses the whole of the `log_len` bytes at `log`, so that they then hold what single calls of scarpgoblet_run, file
 * after file, leave there; a file for which they are too few has 8 in its reply. */
uint32_t scarpgoblet_rack(const uint8_t *rack, size_t rack_len, uint8_t *log, size_t log_len, uint8_t *replies, size_t replies_len);

#ifdef __cplusplus
}
#endif

#endif
