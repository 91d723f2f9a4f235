/* Holds what the header repeats against the archive: the version, and each limit and size, which is taken where one more or one less is
 * refused. Sees too that what is returned has room for every place, and that each refusal has words of its own. It names the functions of
 * the C library itself, as serve.c does. */
#include "raddlebrush.h"

int printf(const char *, ...);
int strcmp(const char *, const char *);
void *memset(void *, int, unsigned long);
void *memcpy(void *, const void *, unsigned long);

static int faults, seen;

static void see(const char *what, uint64_t expected, uint64_t got) {
    seen++;
    if (expected == got) return;
    faults++;
    printf("%s: %llu, and not %llu\n", what, (unsigned long long)got, (unsigned long long)expected);
}

/* ---- job files */

static uint8_t file[RB_MAX_JOB_BYTES + 1];

static size_t add(size_t at, const char *s) {
    while (*s) file[at++] = (uint8_t)*s++;
    return at;
}

static void jobs(void) {
    uint32_t offsets[RB_MAX_STATEMENTS + 1];
    size_t statements, n = add(0, "JOB a RESPONSE \"b\";");
    for (uint32_t i = 1; i < RB_MAX_STATEMENTS; i++) n = add(n, "GETINFO \"c\";");
    see("a file of the most statements", RB_DONE, rb_read_job(file, n, false, offsets, RB_MAX_STATEMENTS, &statements));
    see("their count", RB_MAX_STATEMENTS, statements);
    see("one place less", RB_REFUSAL_TOO_FEW_PLACES, rb_read_job(file, n, false, offsets, RB_MAX_STATEMENTS - 1, &statements));
    n = add(n, "GETINFO \"c\";");
    see("one statement more", RB_REFUSAL_TOO_MANY_STATEMENTS,
        rb_refusal_number(rb_read_job(file, n, false, offsets, RB_MAX_STATEMENTS + 1, &statements)));
    memset(file, ' ', sizeof file);
    rb_result end = rb_read_job(file, RB_MAX_JOB_BYTES, false, offsets, RB_MAX_STATEMENTS, &statements);
    see("the longest file, of blanks", RB_REFUSAL_END_OF_FILE, rb_refusal_number(end));
    see("its end", RB_MAX_JOB_BYTES, rb_refusal_place(end));
    see("one byte more", RB_REFUSAL_FILE_TOO_LONG, rb_read_job(file, sizeof file, false, offsets, RB_MAX_STATEMENTS, &statements));
    file[0] = file[RB_MAX_TEXT_BYTES + 1] = '"';
    see("the longest text of a string", RB_MAX_TEXT_BYTES, rb_text_length(file, sizeof file, 0));
    file[RB_MAX_TEXT_BYTES + 1] = ' ';
    file[RB_MAX_TEXT_BYTES + 2] = '"';
    see("one byte more of it", false, rb_is_text_at(file, sizeof file, 0));
    rb_result text = rb_read_job(file, RB_MAX_TEXT_BYTES + 1, false, offsets, RB_MAX_STATEMENTS, &statements);
    see("the longest text, and then the end", RB_REFUSAL_OPEN_STRING, text);
    text = rb_read_job(file, RB_MAX_TEXT_BYTES + 2, false, offsets, RB_MAX_STATEMENTS, &statements);
    see("one byte more, and then the end", RB_REFUSAL_BROKEN_STRING, text);
    file[RB_MAX_TEXT_BYTES + 1] = '\n';
    text = rb_read_job(file, RB_MAX_TEXT_BYTES + 2, false, offsets, RB_MAX_STATEMENTS, &statements);
    see("the longest text, and then a line break", RB_REFUSAL_BROKEN_STRING, text);
}

/* ---- whether to start */

static void starts(void) {
    static uint8_t text[RB_MAX_TEXT_BYTES + 1];
    size_t n = add(0, "\"\"");
    rb_statement clause = {.start_kind = RB_START_CONDITION, .operator_kind = RB_OPERATOR_NOT_EQUAL, .operand_kind = RB_OPERAND_STRING};
    rb_value value = {.kind = RB_OPERAND_STRING, .text = text, .text_bytes = RB_MAX_TEXT_BYTES};
    bool due = false;
    memset(text, 't', sizeof text);
    see("the longest text as a value", RB_DONE, rb_is_due(file, n, &clause, 20240430, 60000, 20240430, &value, &due));
    see("it is not the empty one", true, due);
    value.text_bytes++;
    see("one byte more as a value", RB_REFUSAL_NOT_A_RECORD, rb_is_due(file, n, &clause, 20240430, 60000, 20240430, &value, &due));
}

/* ---- records and names */

static rb_result write_error(uint32_t number, uint32_t error_class, uint32_t code, size_t text_bytes, size_t room, size_t *used) {
    static uint8_t text[RB_MAX_TEXT_BYTES + 1], out[RB_MAX_RECORD_BYTES];
    memset(text, 't', sizeof text);
    return rb_write_record((rb_command_number){number}, RB_OUTCOME_ERROR, error_class, code, text, text_bytes, 20240430, 60000, out, room, used);
}

static void records(void) {
    size_t used = 0, room = RB_MAX_RECORD_BYTES;
    see("the longest record", RB_DONE, write_error(RB_MAX_COMMANDS, RB_MAX_CLASS, RB_MAX_CODE, RB_MAX_TEXT_BYTES, room, &used));
    see("its length", RB_MAX_RECORD_BYTES, used);
    see("its room less one", RB_REFUSAL_TOO_LITTLE_ROOM, write_error(RB_MAX_COMMANDS, RB_MAX_CLASS, RB_MAX_CODE, RB_MAX_TEXT_BYTES, room - 1, &used));
    see("a number more", RB_REFUSAL_NOT_A_RECORD, write_error(RB_MAX_COMMANDS + 1, 0, 0, 0, room, &used));
    see("a class more", RB_REFUSAL_NOT_A_RECORD, write_error(1, RB_MAX_CLASS + 1, 0, 0, room, &used));
    see("a code more", RB_REFUSAL_NOT_A_RECORD, write_error(1, 0, RB_MAX_CODE + 1, 0, room, &used));
    see("a byte of text more", RB_REFUSAL_NOT_A_RECORD, write_error(1, 0, 0, RB_MAX_TEXT_BYTES + 1, room, &used));
}

static void names(void) {
    uint8_t name[RB_FILE_NAME_BYTES];
    size_t used = 0;
    rb_session_number last = {RB_MAX_SESSIONS - 1};
    see("the last name", RB_DONE, rb_write_file_name(last, RB_FILE_RESPONSE, RB_MAX_SESSIONS, name, sizeof name, &used));
    see("its length", RB_FILE_NAME_BYTES, used);
    see("its room less one", RB_REFUSAL_TOO_LITTLE_ROOM, rb_write_file_name(last, RB_FILE_RESPONSE, RB_MAX_SESSIONS, name, sizeof name - 1, &used));
    see("a session more", RB_REFUSAL_OUT_OF_RANGE, rb_write_file_name(last, RB_FILE_RESPONSE, RB_MAX_SESSIONS + 1, name, sizeof name, &used));
}

/* ---- reports */

static void reports(void) {
    rb_part cells[2 * (RB_MAX_COLUMNS + 1)];
    uint8_t out[4 * (RB_MAX_COLUMNS + 1)];
    size_t columns = 0, lines = 0, used = 0, n = 0, most = RB_MAX_COLUMNS, second = 2 * most + 1; /* where the second line begins */
    see("a part is two numbers", 2 * sizeof(size_t), sizeof(rb_part));
    see("its place is the first", 0, offsetof(rb_part, place));
    see("its length is the second", sizeof(size_t), offsetof(rb_part, length));
    for (uint32_t i = 0; i < RB_MAX_COLUMNS; i++) n = add(n, i ? ",n" : "n");
    n = add(n, "\r\n");
    for (uint32_t i = 0; i < RB_MAX_COLUMNS; i++) n = add(n, i ? ",1" : "1");
    n = add(n, "\r\n");
    see("a report of the most columns", RB_DONE, rb_read_report(file, n, ',', cells, 2 * most, &columns, &lines));
    see("their count", RB_MAX_COLUMNS, columns);
    see("the count of its lines", 1, lines);
    see("its cells less one", RB_REFUSAL_TOO_LITTLE_ROOM, rb_read_report(file, n, ',', cells, 2 * most - 1, &columns, &lines));
    see("it, written", RB_DONE, rb_write_report(file, n, cells, 2 * most, most, ',', out, n, &used));
    see("its length", n, used);
    see("its room less one", RB_REFUSAL_TOO_LITTLE_ROOM, rb_write_report(file, n, cells, 2 * most, most, ',', out, n - 1, &used));
    cells[2 * most] = cells[2 * most - 1];
    see("a cell more", RB_REFUSAL_NOT_A_RECORD, rb_write_report(file, n, cells, 2 * most + 1, most, ',', out, n, &used));
    see("a column more, written", RB_REFUSAL_OUT_OF_RANGE, rb_write_report(file, n, cells, most + 1, most + 1, ',', out, n, &used));
    see("no column, written", RB_REFUSAL_OUT_OF_RANGE, rb_write_report(file, n, cells, most, 0, ',', out, n, &used));
    file[n - 2] = ',';
    n = add(n - 1, "1\r\n");
    rb_result no = rb_read_report(file, n, ',', cells, 2 * (most + 1), &columns, &lines);
    see("a value more", RB_REFUSAL_NOT_A_RECORD, rb_refusal_number(no));
    see("the start of its line", second, rb_refusal_place(no));
    n = add(second - 2, ",n\r\n");
    see("a name more", RB_REFUSAL_NOT_A_RECORD, rb_read_report(file, n, ',', cells, most + 1, &columns, &lines));
}

/* ---- tables */

static uint8_t table[RB_TABLE_BYTES + 1], copy[RB_TABLE_BYTES];

static void tables(void) {
    static uint8_t out[RB_MAX_REPLY_BYTES];
    size_t n = RB_TABLE_BYTES, used = 0;
    rb_session_number number;
    rb_command_number command;
    rb_ticket ticket;
    see("a byte less", RB_REFUSAL_UNSOUND, rb_table_make(table, n - 1, RB_MAX_SESSIONS));
    see("a byte more", RB_REFUSAL_UNSOUND, rb_table_make(table, n + 1, RB_MAX_SESSIONS));
    see("a session more", RB_REFUSAL_OUT_OF_RANGE, rb_table_make(table, n, RB_MAX_SESSIONS + 1));
    see("zeroes are a sound table", false, rb_is_sound(table, n));
    see("the largest table", RB_DONE, rb_table_make(table, n, RB_MAX_SESSIONS));
    see("it is sound", true, rb_is_sound(table, n));
    see("it is sound with a byte more", false, rb_is_sound(table, n + 1));
    see("a program more", RB_REFUSAL_OUT_OF_RANGE, rb_table_place(table, n, RB_MAX_PROGRAM + 1, 1, &number, &ticket));
    see("a command more", RB_REFUSAL_OUT_OF_RANGE, rb_table_place(table, n, 1, RB_MAX_COMMANDS + 1, &number, &ticket));
    see("the last program, the most commands", RB_DONE, rb_table_place(table, n, RB_MAX_PROGRAM, RB_MAX_COMMANDS, &number, &ticket));
    while (rb_table_take_up(table, n, &number, &ticket, &command) == RB_DONE) {
        rb_result no = rb_table_answer(table, n, ticket, command, RB_OUTCOME_ERROR, RB_MAX_CLASS + 1, 0, 20240430, 60000);
        see("a class more, answered", RB_REFUSAL_NOT_A_RECORD, no);
        no = rb_table_answer(table, n, ticket, command, RB_OUTCOME_ERROR, RB_MAX_CLASS, RB_MAX_CODE, 20240430, 60000);
        see("the last class and code, answered", RB_DONE, no);
        if (no != RB_DONE) return;
    }
    memcpy(copy, table, n);
    see("the longest reply's room less one", RB_REFUSAL_TOO_LITTLE_ROOM, rb_table_collect(copy, n, RB_MAX_PROGRAM, ticket, out, sizeof out - 1, &used));
    see("the longest reply", RB_DONE, rb_table_collect(table, n, RB_MAX_PROGRAM, ticket, out, sizeof out, &used));
    see("its length", RB_MAX_REPLY_BYTES, used);
    for (uint32_t i = 0; i < RB_MAX_SESSIONS; i++) see("a session", RB_DONE, rb_table_place(table, n, 1, 1, &number, &ticket));
    see("the last session's number", RB_MAX_SESSIONS - 1, number.n);
    see("a session more, placed", RB_REFUSAL_ALL_TAKEN, rb_table_place(table, n, 1, 1, &number, &ticket));
}

/* ---- refusals */

static void refusals(void) {
    rb_result most = UINT64_MAX - 255u + RB_REFUSAL_END_OF_FILE;
    see("the number beside the largest place", RB_REFUSAL_END_OF_FILE, rb_refusal_number(most));
    see("the largest place", ((uint64_t)1 << 56) - 1, rb_refusal_place(most));
    for (uint32_t a = 0; a <= RB_REFUSAL_NOT_COMPARABLE + 1; a++)
        for (uint32_t b = 0; b < a; b++) see("two refusals have the same words", false, !strcmp(rb_refusal_text(a), rb_refusal_text(b)));
    see("unknown refusals have the same words", 0, (uint64_t)strcmp(rb_refusal_text(RB_REFUSAL_NOT_COMPARABLE + 1), rb_refusal_text(UINT32_MAX)));
}

int main(void) {
    see("the archive's version", RB_VERSION, rb_version());
    see("the archive is the header's", true, rb_is_this_version());
    jobs();
    starts();
    records();
    names();
    reports();
    tables();
    refusals();
    printf("%d facts of version, limits and refusals, %d unlike the archive\n", seen, faults);
    return faults != 0;
}
