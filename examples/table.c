/* Prints a report file as a table: table FILE DELIMITER. The names stand on top, each column is as wide as its widest cell, and a string is
 * shown without its quotes. A file that is no report is refused, and the line at fault begins at the place that is told. */
#include <stdio.h>
#include <stdlib.h>
#include <string.h>

#include "raddlebrush.h"

/* The bytes of a file, and their count in *n; NULL where it cannot be read. */
static uint8_t *whole_file(const char *path, size_t *n) {
    FILE *f = fopen(path, "rb");
    if (!f) return NULL;
    long end = fseek(f, 0, SEEK_END) ? -1 : ftell(f);
    uint8_t *bytes = end < 0 ? NULL : malloc((size_t)end + 1);
    rewind(f);
    *n = bytes ? fread(bytes, 1, (size_t)end, f) : 0;
    bool was_read = bytes && *n == (size_t)end;
    fclose(f);
    if (was_read) return bytes;
    free(bytes);
    return NULL;
}

/* What is shown of a cell: a number or a name as it stands, and the text of a string. */
static rb_part shown(const uint8_t *file, rb_part cell) {
    return file[cell.place] == '"' ? (rb_part){cell.place + 1, cell.length - 2} : cell;
}

static void print_table(const uint8_t *file, const rb_part *cells, size_t columns, size_t lines) {
    size_t widths[RB_MAX_COLUMNS] = {0}, count = columns * (lines + 1);
    for (size_t i = 0; i < count; i++) {
        size_t length = shown(file, cells[i]).length, *width = &widths[i % columns];
        if (*width < length) *width = length;
    }
    for (size_t i = 0; i < count; i++) {
        rb_part cell = shown(file, cells[i]);
        bool last = i % columns == columns - 1;
        printf("%-*.*s%s", last ? 0 : (int)widths[i % columns], (int)cell.length, (const char *)file + cell.place, last ? "\n" : "  ");
    }
}

int main(int argc, char **argv) {
    size_t n, columns, lines;
    if (argc != 3 || strlen(argv[2]) != 1) return 2;
    uint8_t *file = whole_file(argv[1], &n);
    if (!file) return 2;
    size_t enough = n / 2 + 1; /* every cell has a byte of its own and one after it */
    rb_part *cells = malloc(enough * sizeof *cells);
    if (!cells) return 2;
    rb_result no = rb_read_report(file, n, (uint8_t)argv[2][0], cells, enough, &columns, &lines);
    uint32_t number = rb_refusal_number(no);
    if (no == RB_DONE) print_table(file, cells, columns, lines);
    else printf("refused: %u at %zu, %s\n", number, rb_refusal_place(no), rb_refusal_text(number));
    free(cells);
    free(file);
    return no != RB_DONE;
}
