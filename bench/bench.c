/* Measures the library's calls against plain C (reader.re, plain.c) on the same inputs.
 *   bench time            nanoseconds a call, the best of several tries
 *   bench count           one call of each case, between requests to callgrind
 *   bench one CASE SIDE N N calls of one case, for a counter that sees only the whole program
 * Each line is: case, bytes or sessions, side, nanoseconds. Before anything is measured, both sides answer each case and are compared. */
#include "raddlebrush.h"
#include "plain.h"
#ifdef CALLGRIND
#include <valgrind/callgrind.h>
#else
#define CALLGRIND_ZERO_STATS
#define CALLGRIND_DUMP_STATS_AT(name) (void)(name)
#endif

int printf(const char *, ...);
int sprintf(char *, const char *, ...);
int strcmp(const char *, const char *);
int memcmp(const void *, const void *, unsigned long);
void *memcpy(void *, const void *, unsigned long);
void *memset(void *, int, unsigned long);
unsigned long strlen(const char *);
int atoi(const char *);
void exit(int);
struct timespec_ { long s, ns; };
int clock_gettime(int, struct timespec_ *);

static double now(void) {
    struct timespec_ t;
    clock_gettime(1, &t);
    return (double)t.s * 1e9 + (double)t.ns;
}

/* ---- what the calls are given, and what they leave */

static uint8_t file[65537];
static size_t file_bytes;
static uint8_t text[255];
static size_t text_bytes;
static struct { uint32_t number, outcome, error_class, code, date, time; } record;
static uint32_t date;
static rb_session_number session_number;
static uint8_t table[RB_TABLE_BYTES], saved[48];
static size_t held; /* the row of the session that a call changes */
static uint32_t program;
static rb_ticket ticket;
static rb_command_number command;

#define REPORT_BYTES 10001000
#define REPORT_CELLS 2000000
static uint8_t report[REPORT_BYTES];
static size_t report_bytes;
static uint8_t delimiter;
static rb_part cells[REPORT_CELLS]; /* what is written */
static size_t cell_count, columns;

static struct {
    rb_result returned;
    uint32_t offsets[RB_MAX_STATEMENTS];
    rb_session_number number;
    rb_ticket ticket;
    rb_command_number command;
    size_t count, lines;
    uint8_t out[RB_MAX_REPLY_BYTES];
} left;

/* What reading and writing a report leave: ours and theirs. */
static rb_part left_cells[2][REPORT_CELLS];
static uint8_t left_report[2][REPORT_BYTES];

/* ---- job files */

enum file_kind { TYPICAL, LONG_STRINGS, COMMENTS, REFUSED_EARLY, REFUSED_LATE };

/* As many statements as a file could have when its case was first measured, so that it can be compared. */
#define EARLIER_STATEMENTS 64

static void add(const char *s) {
    size_t n = strlen(s);
    memcpy(file + file_bytes, s, n);
    file_bytes += n;
}

static void begin_file(void) {
    file_bytes = 0;
    add("JOB lot_17 RESPONSE \"lot_17.log\";\r\n");
}

static void statement(int i) {
    static const char *const kinds[] = {
        "UPLOAD \"mould_4711.stp\" ACTIVE START IMMEDIATE;\r\n",
        "DOWNLOAD \"C:\\sets\\housing.stp\" set_12 START TIME>= 06:00:00 20240430;\r\n",
        "GETINFO \"machine.inf\";\r\n",
        "UPLOAD \"next.stp\" \"a.stp\" START ActCntCyc >= 12500;\r\n",
        "ABORT REPORT shift_report;\r\n",
        "DOWNLOAD \"b.stp\" ACTIVE START SetTmpNoz = -215.50;\r\n",
    };
    add(kinds[i % 6]);
}

static void end_file(void) { file[file_bytes] = 0; }

static void typical(int statements) {
    begin_file();
    for (int i = 1; i < statements; i++) statement(i - 1);
    end_file();
}

static void long_strings(void) {
    char s[256];
    memset(s, 'p', 255);
    s[255] = 0;
    begin_file();
    for (int i = 1; i < EARLIER_STATEMENTS; i++) {
        add("UPLOAD \""); add(s); add("\" \""); add(s); add("\" START "); add("p = \""); add(s); add("\";\n");
    }
    end_file();
}

static void comments(void) {
    begin_file();
    for (int i = 1; i < EARLIER_STATEMENTS; i++) {
        for (int k = 0; k < 12; k++) add("// what the shift wrote about this statement, and why it stands here\r\n");
        statement(i - 1);
    }
    end_file();
}

static void refused_early(void) {
    comments();
    memcpy(file, "JOB ; ", 6);
}

static void refused_late(void) {
    comments();
    file[file_bytes - 3] = '!';
}

/* ---- records */

static void usual_record(uint32_t outcome) {
    record.number = 17, record.outcome = outcome, record.error_class = 7, record.code = 120045, record.date = 20240430, record.time = 60000;
}

/* The permitted record whose digits take the most subtractions: of all numbers up to the limit, those of the last but one come to the most. */
static void most_digits(void) {
    record.number = RB_MAX_COMMANDS - 1, record.outcome = 1, record.error_class = 99, record.code = 99999999, record.date = 99990929,
    record.time = 195959;
}

/* ---- reports */

enum report_kind { MIXED, NUMBERS, STRINGS, NARROW, REFUSED };

static uint32_t seed;

static uint32_t below(uint32_t n) {
    seed = seed * 1664525 + 1013904223;
    return (uint32_t)(((uint64_t)seed * n) >> 32);
}

static void put_byte(uint8_t b) { report[report_bytes++] = b; }

static void put_text(const char *s) {
    while (*s) put_byte((uint8_t)*s++);
}

static void put_digits(uint32_t n) {
    do put_byte((uint8_t)('0' + below(10)));
    while (--n);
}

static void put_number(uint32_t whole, uint32_t fraction) {
    if (fraction && !below(4)) put_byte('-');
    put_digits(1 + below(whole));
    if (fraction) put_byte('.'), put_digits(1 + below(fraction));
}

static void put_string(uint32_t shortest, uint32_t longest) {
    put_byte('"');
    for (uint32_t n = shortest + below(longest - shortest + 1); n; n--) put_byte((uint8_t)(below(8) ? 'a' + below(26) : (uint32_t)" ,;|"[below(4)]));
    put_byte('"');
}

static void put_value(enum report_kind kind, size_t column) {
    if (kind == NARROW) put_digits(1);
    else if (kind == NUMBERS) put_number(8, column % 2 ? 4 : 0);
    else if (kind == STRINGS) put_string(200, 255);
    else if (column < 5) put_number(column < 2 ? 6 : 3, column < 2 ? 0 : 2);
    else put_string(column == 7 ? 0 : 3, column == 7 ? 24 : 10);
}

/* A report of about that many bytes, with names and values of that kind. The last line of REFUSED has a value too many. */
static void make_report(enum report_kind kind, size_t bytes) {
    static const char *const names[] = {"lot", "ActCntCyc", "weight", "drift", "SetTmpNoz", "part", "shift_leader", "remark"};
    static enum report_kind made_kind;
    static size_t made_bytes;
    if (made_kind == kind && made_bytes == bytes) return;
    made_kind = kind;
    made_bytes = bytes;
    seed = 17;
    report_bytes = 0;
    columns = kind == NARROW ? RB_MAX_COLUMNS : 8;
    delimiter = (uint8_t)";,|\t;"[kind];
    for (size_t i = 0; i < columns; i++) put_text(names[i % 8]), put_byte(i + 1 < columns ? delimiter : 13);
    put_byte(10);
    while (report_bytes < bytes) {
        for (size_t i = 0; i < columns; i++) put_value(kind, i), put_byte(i + 1 < columns ? delimiter : 13);
        put_byte(10);
    }
    if (kind == REFUSED) report_bytes -= 2, put_byte(delimiter), put_text("1\r\n");
    size_t lines;
    if (!plain_read_report(report, report_bytes, delimiter, cells, REPORT_CELLS, &columns, &lines)) cell_count = columns * (lines + 1);
}

/* ---- session tables */

static void put(size_t row, uint32_t a, uint32_t b, uint32_t c, uint32_t d) {
    uint32_t v[4] = {a, b, c, d};
    memcpy(table + 16 * row, v, 16);
}

static size_t row_of(uint32_t s, uint32_t c) { return 1 + (2 + RB_MAX_COMMANDS) * (size_t)s + (c ? 1 + c : 0); }

static void session(uint32_t s, uint32_t p, uint32_t count, uint32_t answered) {
    put(row_of(s, 0), 1, p, count, answered);
    put(row_of(s, 0) + 1, s + 1, 0, 0, 0);
    for (uint32_t c = 1; c <= answered; c++) put(row_of(s, c), c % 4 ? 0 : 7, c % 4 ? 0 : 120045, 20240401 + c % 30, 60000 + c % 60);
}

static void keep(uint32_t s) {
    held = row_of(s, 0);
    memcpy(saved, table, 16);
    memcpy(saved + 16, table + 16 * held, 32);
}

static void restore(void) {
    memcpy(table, saved, 16);
    memcpy(table + 16 * held, saved + 16, 32);
}

/* A table of that many sessions, of which the last one is open, half answered, or closed, with that many commands. */
static void sessions(uint32_t n, uint32_t count, uint32_t answered, bool last_stands, bool in_hand) {
    memset(table, 0, sizeof table);
    for (uint32_t s = 0; s + 1 < n; s++) session(s, 1 + s % 8, count, count);
    if (last_stands) session(n - 1, 3, count, answered);
    put(0, RB_MAX_SESSIONS, n, n - 1, in_hand ? n : 0);
    program = 3;
    ticket.n = n;
    command.n = answered + 1;
    keep(n - 1);
}

/* ---- the calls of each side */

enum call { READ, IS_DATE, WRITE, WRITE_NAME, READ_REPORT, WRITE_REPORT, MAKE, PLACE, TAKE_UP, ANSWER, COLLECT };

static void ours(enum call call) {
    switch (call) {
    case READ: left.returned = rb_read_job(file, file_bytes, false, left.offsets, RB_MAX_STATEMENTS, &left.count); break;
    case IS_DATE: left.returned = rb_is_real_date(date); break;
    case WRITE:
        left.returned = rb_write_record((rb_command_number){record.number}, record.outcome, record.error_class, record.code, text, text_bytes,
                                        record.date, record.time, left.out, sizeof left.out, &left.count);
        break;
    case WRITE_NAME: left.returned = rb_write_file_name(session_number, RB_FILE_REQUEST, 32, left.out, sizeof left.out, &left.count); break;
    case READ_REPORT: left.returned = rb_read_report(report, report_bytes, delimiter, left_cells[0], REPORT_CELLS, &left.count, &left.lines); break;
    case WRITE_REPORT: left.returned = rb_write_report(report, report_bytes, cells, cell_count, columns, delimiter, left_report[0], REPORT_BYTES, &left.count); break;
    case MAKE: left.returned = rb_table_make(table, sizeof table, RB_MAX_SESSIONS); break;
    case PLACE: left.returned = rb_table_place(table, sizeof table, 5, 12, &left.number, &left.ticket); restore(); break;
    case TAKE_UP: left.returned = rb_table_take_up(table, sizeof table, &left.number, &left.ticket, &left.command); restore(); break;
    case ANSWER: left.returned = rb_table_answer(table, sizeof table, ticket, command, 1, 7, 120045, 20240430, 60000); restore(); break;
    case COLLECT: left.returned = rb_table_collect(table, sizeof table, program, ticket, left.out, sizeof left.out, &left.count); restore(); break;
    }
}

static void theirs(enum call call) {
    switch (call) {
    case READ: left.returned = plain_read_job(file, file_bytes, false, left.offsets, RB_MAX_STATEMENTS, &left.count); break;
    case IS_DATE: left.returned = plain_is_real_date(date); break;
    case WRITE:
        left.returned = plain_write_record(record.number, record.outcome, record.error_class, record.code, text, text_bytes, record.date,
                                           record.time, left.out, sizeof left.out, &left.count);
        break;
    case WRITE_NAME: left.returned = plain_write_file_name(session_number.n, RB_FILE_REQUEST, 32, left.out, sizeof left.out, &left.count); break;
    case READ_REPORT: left.returned = plain_read_report(report, report_bytes, delimiter, left_cells[1], REPORT_CELLS, &left.count, &left.lines); break;
    case WRITE_REPORT: left.returned = plain_write_report(report, report_bytes, cells, cell_count, columns, delimiter, left_report[1], REPORT_BYTES, &left.count); break;
    case MAKE: left.returned = plain_make(table, sizeof table, RB_MAX_SESSIONS); break;
    case PLACE: left.returned = plain_place(table, sizeof table, 5, 12, &left.number.n, &left.ticket.n); restore(); break;
    case TAKE_UP: left.returned = plain_take_up(table, sizeof table, &left.number.n, &left.ticket.n, &left.command.n); restore(); break;
    case ANSWER: left.returned = plain_answer(table, sizeof table, ticket.n, command.n, 1, 7, 120045, 20240430, 60000); restore(); break;
    case COLLECT: left.returned = plain_collect(table, sizeof table, program, ticket.n, left.out, sizeof left.out, &left.count); restore(); break;
    }
}

/* ---- the cases */

struct measured {
    char name[40];
    enum call call;
    int kind, size;
};

static struct measured cases[100];
static int case_count;

static void new_case(const char *name, enum call call, int kind, int size) {
    struct measured *c = &cases[case_count++];
    sprintf(c->name, "%s", name);
    c->call = call;
    c->kind = kind;
    c->size = size;
}

static void all_cases(void) {
    static const struct { const char *name; enum report_kind kind; int bytes; } reports[] = {
        {"10KB", MIXED, 10000}, {"100KB", MIXED, 100000}, {"1MB", MIXED, 1000000}, {"10MB", MIXED, 10000000},
        {"numbers", NUMBERS, 1000000}, {"strings", STRINGS, 1000000}, {"narrow", NARROW, 1000000}, {"refused-late", REFUSED, 1000000}};
    static const char *const calls[] = {"place", "take-up", "answer", "collect"};
    const int most = RB_MAX_STATEMENTS;
    char name[40];
    new_case("read/short", READ, TYPICAL, 2);
    new_case("read/typical", READ, TYPICAL, 12);
    for (int i = 0; i < 2; i++) {
        sprintf(name, "read/%d-statements", i ? most : EARLIER_STATEMENTS);
        new_case(name, READ, TYPICAL, i ? most : EARLIER_STATEMENTS);
    }
    new_case("read/long-strings", READ, LONG_STRINGS, 0);
    new_case("read/comments", READ, COMMENTS, 0);
    new_case("read/refused-early", READ, REFUSED_EARLY, 0);
    new_case("read/refused-late", READ, REFUSED_LATE, 0);
    for (int n = 1; n < 2 * most; n *= 2) { /* powers of two, and the most */
        sprintf(name, "read-growth/%d", n < most ? n : most);
        new_case(name, READ, TYPICAL, n < most ? n : most);
    }
    new_case("is-date/28-april", IS_DATE, 20240428, 0);
    new_case("is-date/30-april", IS_DATE, 20240430, 0);
    new_case("is-date/28-february", IS_DATE, 20240228, 0);
    new_case("is-date/29-february", IS_DATE, 20240229, 0);
    new_case("write/processed", WRITE, 0, 0);
    new_case("write/error", WRITE, 1, 0);
    new_case("write/most-digits", WRITE, 2, 0);
    new_case("write-name/0", WRITE_NAME, 0, 0);
    new_case("write-name/29", WRITE_NAME, 29, 0);
    for (int n = 1; n <= 256; n *= 4) {
        sprintf(name, "write-growth/%d", n < 255 ? n : 255);
        new_case(name, WRITE, 1, n < 255 ? n : 255);
    }
    for (int i = 0; i < 15; i++) { /* what is refused is not written */
        sprintf(name, "%s/%s", i < 8 ? "read-report" : "write-report", reports[i % 8].name);
        new_case(name, i < 8 ? READ_REPORT : WRITE_REPORT, (int)reports[i % 8].kind, reports[i % 8].bytes);
    }
    new_case("make/full", MAKE, RB_MAX_COMMANDS, 32);
    for (int c = 0; c < 4; c++) {
        sprintf(name, "%s/empty", calls[c]);
        new_case(name, (enum call)(PLACE + c), 1, 1);
        sprintf(name, "%s/full", calls[c]);
        new_case(name, (enum call)(PLACE + c), RB_MAX_COMMANDS, 32);
        for (int n = 1; n <= 32; n *= 2) {
            sprintf(name, "%s-growth/%d", calls[c], n);
            new_case(name, (enum call)(PLACE + c), RB_MAX_COMMANDS, n);
        }
    }
}

static int bytes_of(const struct measured *c) {
    if (c->call == READ_REPORT || c->call == WRITE_REPORT) return (int)report_bytes;
    return c->call == READ ? (int)file_bytes : c->size;
}

static void set_up(const struct measured *c) {
    uint32_t count = (uint32_t)c->kind, n = (uint32_t)c->size;
    memset(&left, 0, sizeof left);
    switch (c->call) {
    case READ:
        if (c->kind == TYPICAL) typical(c->size);
        if (c->kind == LONG_STRINGS) long_strings();
        if (c->kind == COMMENTS) comments();
        if (c->kind == REFUSED_EARLY) refused_early();
        if (c->kind == REFUSED_LATE) refused_late();
        break;
    case IS_DATE: date = (uint32_t)c->kind; break;
    case WRITE:
        if (c->kind == 2) most_digits();
        else usual_record((uint32_t)c->kind);
        text_bytes = (size_t)c->size;
        memset(text, 't', sizeof text);
        break;
    case WRITE_NAME: session_number.n = (uint32_t)c->kind; break;
    case READ_REPORT:
    case WRITE_REPORT: make_report((enum report_kind)c->kind, (size_t)c->size); break;
    case MAKE: sessions(n, count, count, true, false); break;
    case PLACE: sessions(n, count, 0, false, false); break;
    case TAKE_UP: sessions(n, count, count - 1, true, false); break;
    case ANSWER: sessions(n, count, count - 1, true, true); break;
    case COLLECT: sessions(n, count, count, true, false); break;
    }
}

static void compare(const struct measured *c) {
    static uint8_t first[sizeof left], first_table[sizeof table];
    set_up(c);
    ours(c->call);
    memcpy(first, &left, sizeof left);
    memcpy(first_table, table, sizeof table);
    set_up(c);
    theirs(c->call);
    bool differ = memcmp(first, &left, sizeof left) || memcmp(first_table, table, sizeof table);
    if (c->call == READ_REPORT) differ |= memcmp(left_cells[0], left_cells[1], sizeof cells) != 0;
    if (c->call == WRITE_REPORT) differ |= memcmp(left_report[0], left_report[1], sizeof report) != 0;
    if (differ) {
        printf("%s: the two sides differ: %u and %u\n", c->name, first[0], rb_refusal_number(left.returned));
        exit(1);
    }
}

static double time_of(enum call call, void (*side)(enum call)) {
    double best = 1e18;
    for (int try = 0, n = 1; try < 7;) {
        double a = now();
        for (int i = 0; i < n; i++) side(call);
        double t = now() - a;
        if (t < 4e6) {
            n *= 2;
            continue;
        }
        if (t / n < best) best = t / n;
        try++;
    }
    return best;
}

static void count(const struct measured *c, const char *side_name, void (*side)(enum call)) {
    char label[80];
    sprintf(label, "%.40s %d %.6s", c->name, bytes_of(c), side_name);
    side(c->call);
    CALLGRIND_ZERO_STATS;
    side(c->call);
    CALLGRIND_DUMP_STATS_AT(label);
}

int main(int argc, char **argv) {
    all_cases();
    if (argc == 5 && !strcmp(argv[1], "one")) {
        struct measured *c = &cases[atoi(argv[2])];
        set_up(c);
        for (int i = atoi(argv[4]); i > 0; i--) (!strcmp(argv[3], "ours") ? ours : theirs)(c->call);
        return 0;
    }
    for (int i = 0; i < case_count; i++) {
        struct measured *c = &cases[i];
        compare(c);
        set_up(c);
        if (argc > 1 && !strcmp(argv[1], "count")) {
            count(c, "ours", ours);
            count(c, "plain", theirs);
        } else if (argc > 1 && !strcmp(argv[1], "list")) {
            printf("%d %s %d\n", i, c->name, bytes_of(c));
        } else {
            printf("%s %d ours %.1f\n", c->name, bytes_of(c), time_of(c->call, ours));
            printf("%s %d plain %.1f\n", c->name, bytes_of(c), time_of(c->call, theirs));
        }
    }
    return 0;
}
