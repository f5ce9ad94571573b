/* The operations again, in plain C: the same numbers and the same bytes as phg.h's. */
#ifndef PLAIN_H
#define PLAIN_H
#include "phg.h"

void plain_run(const uint8_t *file, size_t file_len, uint16_t start, uint64_t answer[6]);
void plain_build(uint8_t n, const uint8_t *table, size_t table_len, uint8_t *out, size_t out_len, uint64_t answer[6]);
void plain_fold(const uint8_t *file, size_t file_len, uint8_t *out, size_t out_len, uint64_t answer[6]);
void plain_cancel(const uint8_t *file, size_t file_len, uint16_t most, uint8_t *out, size_t out_len,
                  uint64_t answer[6]);
void plain_compare(const uint8_t *first, size_t first_len, const uint8_t *second, size_t second_len, uint16_t *work,
                   size_t work_len, uint64_t answer[6]);
void plain_judge(uint8_t n, const uint8_t *table, size_t table_len, const uint8_t *file, size_t file_len,
                 uint16_t *work, size_t work_len, uint64_t answer[6]);
void plain_list(const uint8_t *file, size_t file_len, uint8_t wrapped, uint8_t *out, size_t out_len,
                uint64_t answer[6]);

/* compare's six numbers for two good files of one width, by running both from every start; no coefficients */
void brute_compare(const uint8_t *first, size_t first_len, const uint8_t *second, size_t second_len,
                   uint64_t answer[6]);

#endif
