/* The bench and the judge as a plain C program would have them, for the comparison of speed: same job, same reply. */
#ifndef PLAIN_H
#define PLAIN_H

#include <stddef.h>
#include <stdint.h>

size_t plain_run(const uint8_t *file, size_t file_len, uint8_t *log, size_t log_len, uint16_t report[4], uint16_t table[536]);
uint32_t plain_judge(const uint8_t *log, size_t length);
uint32_t plain_judge_entry(const uint8_t *log, size_t length);

#endif
