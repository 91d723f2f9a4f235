/* Plain C that answers as the library does: what it is measured against. */
#ifndef PLAIN_H
#define PLAIN_H

#include <stdbool.h>
#include <stddef.h>
#include <stdint.h>

#include "raddlebrush.h"

bool plain_is_real_date(uint32_t date);
bool plain_is_real_time(uint32_t time);
uint32_t plain_read_job(const uint8_t *file, size_t n, bool clause_optional, uint32_t *offsets, size_t places, size_t *statements);
uint32_t plain_write_record(uint32_t number, uint32_t outcome, uint32_t error_class, uint32_t code, const uint8_t *text, size_t text_bytes,
                            uint32_t date, uint32_t time, uint8_t *out, size_t room, size_t *written);
uint32_t plain_write_file_name(uint32_t number, uint32_t kind, uint32_t max, uint8_t *out, size_t room, size_t *written);
rb_result plain_read_report(const uint8_t *file, size_t n, uint8_t delimiter, rb_part *cells, size_t cell_count, size_t *columns, size_t *lines);
rb_result plain_write_report(const uint8_t *source, size_t n, const rb_part *cells, size_t cell_count, size_t columns, uint8_t delimiter,
                             uint8_t *out, size_t room, size_t *used);
uint32_t plain_make(uint8_t *table, size_t n, uint32_t max);
uint32_t plain_place(uint8_t *table, size_t n, uint32_t program, uint32_t count, uint32_t *number, uint32_t *ticket);
uint32_t plain_take_up(uint8_t *table, size_t n, uint32_t *number, uint32_t *ticket, uint32_t *command);
uint32_t plain_answer(uint8_t *table, size_t n, uint32_t ticket, uint32_t command, uint32_t outcome, uint32_t error_class, uint32_t code,
                      uint32_t date, uint32_t time);
uint32_t plain_collect(uint8_t *table, size_t n, uint32_t program, uint32_t ticket, uint8_t *out, size_t room, size_t *written);

#endif
