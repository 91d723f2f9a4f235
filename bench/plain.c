/* The writers of records and names with snprintf, reports byte by byte, and the session table as structs over the same bytes, with the same checks. */
#include "plain.h"

int snprintf(char *, unsigned long, const char *, ...);
int memcmp(const void *, const void *, unsigned long);
unsigned long strlen(const char *);
void *memcpy(void *, const void *, unsigned long);
void *memset(void *, int, unsigned long);

bool plain_is_real_date(uint32_t date) {
    static const uint8_t days[13] = {0, 31, 29, 31, 30, 31, 30, 31, 31, 30, 31, 30, 31};
    uint32_t year = date / 10000, month = date / 100 % 100, day = date % 100;
    if (year > 9999 || month < 1 || month > 12 || day < 1 || day > days[month]) return false;
    return month != 2 || day < 29 || (year % 4 == 0 && (year % 100 != 0 || year % 400 == 0));
}

bool plain_is_real_time(uint32_t time) { return time / 10000 <= 23 && time / 100 % 100 <= 59 && time % 100 <= 59; }

static bool is_text(const uint8_t *text, size_t n) {
    if (n > 255) return false;
    for (size_t i = 0; i < n; i++)
        if (text[i] < 32 || text[i] == 34 || text[i] == 255) return false;
    return true;
}

static bool is_outcome(uint32_t outcome, uint32_t error_class, uint32_t code) {
    return outcome == 0 || (outcome == 1 && error_class <= 99 && code <= 99999999);
}

/* As snprintf does: the length that the record has, whether or not it fits. */
static size_t print_record(char *out, size_t room, uint32_t number, uint32_t outcome, uint32_t error_class, uint32_t code, const uint8_t *text,
                           size_t text_bytes, uint32_t date, uint32_t time) {
    int n = outcome == 0 ? snprintf(out, room, "COMMAND %u PROCESSED \"%.*s\" %08u %02u:%02u:%02u;\r\n", number, (int)text_bytes,
                                    (const char *)text, date, time / 10000, time / 100 % 100, time % 100)
                         : snprintf(out, room, "COMMAND %u ERROR %02u %08u \"%.*s\" %08u %02u:%02u:%02u;\r\n", number, error_class, code,
                                    (int)text_bytes, (const char *)text, date, time / 10000, time / 100 % 100, time % 100);
    return (size_t)n;
}

uint32_t plain_write_record(uint32_t number, uint32_t outcome, uint32_t error_class, uint32_t code, const uint8_t *text, size_t text_bytes,
                            uint32_t date, uint32_t time, uint8_t *out, size_t room, size_t *written) {
    char record[RB_MAX_RECORD_BYTES + 1];
    if (number < 1 || number > RB_MAX_COMMANDS || !is_outcome(outcome, error_class, code) || !is_text(text, text_bytes)) return 7;
    if (!plain_is_real_date(date) || !plain_is_real_time(time)) return 5;
    size_t n = print_record(record, sizeof record, number, outcome, error_class, code, text, text_bytes, date, time);
    if (n > room) return 8;
    memcpy(out, record, n);
    *written = n;
    return 0;
}

uint32_t plain_write_file_name(uint32_t number, uint32_t kind, uint32_t max, uint8_t *out, size_t room, size_t *written) {
    char name[13];
    if (max < 1 || max > 32 || number >= max || kind > 1) return 11;
    if (room < 12) return 8;
    snprintf(name, sizeof name, kind == RB_FILE_REQUEST ? "SESS%04u.REQ" : "SESS%04u.RSP", number);
    memcpy(out, name, 12);
    *written = 12;
    return 0;
}

/* ---- report files. A place after something is NULL where that does not stand. */

static bool is_digit(uint8_t b) { return b >= '0' && b <= '9'; }

static bool is_letter(uint8_t b) { return (b >= 'A' && b <= 'Z') || (b >= 'a' && b <= 'z'); }

static bool is_delimiter(uint8_t b) { return b == ',' || b == ';' || b == '|' || b == '\t'; }

static bool is_reserved(const uint8_t *word, size_t n) {
    static const char *const reserved[] = {"JOB", "RESPONSE", "UPLOAD", "DOWNLOAD", "GETINFO", "ABORT", "REPORT",
                                           "EVENT", "START", "STOP", "ACTIVE", "TIME", "IMMEDIATE", "NEVER"};
    for (size_t i = 0; i < sizeof reserved / sizeof *reserved; i++)
        if (strlen(reserved[i]) == n && !memcmp(reserved[i], word, n)) return true;
    return false;
}

static const uint8_t *after_name(const uint8_t *start, const uint8_t *limit) {
    const uint8_t *p = start;
    if (p == limit || !is_letter(*p)) return NULL;
    while (p < limit && (is_letter(*p) || is_digit(*p) || *p == '_')) p++;
    return p - start <= 255 && !is_reserved(start, (size_t)(p - start)) ? p : NULL;
}

static const uint8_t *after_digits(const uint8_t *p, const uint8_t *limit) {
    while (p < limit && is_digit(*p)) p++;
    return p;
}

static const uint8_t *after_number(const uint8_t *p, const uint8_t *limit) {
    if (p < limit && *p == '-') p++;
    const uint8_t *end = after_digits(p, limit);
    if (end == p || end - p > 16) return NULL;
    if (end == limit || *end != '.') return end;
    const uint8_t *fraction = end + 1;
    end = after_digits(fraction, limit);
    return end != fraction && end - p <= 17 ? end : NULL;
}

static const uint8_t *after_string(const uint8_t *quote, const uint8_t *limit) {
    const uint8_t *p = quote + 1;
    while (p < limit && *p >= 32 && *p != 34 && *p != 255) p++;
    return p < limit && *p == 34 && p - quote <= 256 ? p + 1 : NULL;
}

static const uint8_t *after_field(const uint8_t *p, const uint8_t *limit, bool values) {
    if (!values) return after_name(p, limit);
    return p < limit && *p == 34 ? after_string(p, limit) : after_number(p, limit);
}

static const uint8_t *after_line(const uint8_t *p, const uint8_t *limit, uint8_t delimiter, bool values, size_t *fields) {
    for (*fields = 1;; ++*fields) {
        p = after_field(p, limit, values);
        if (!p || p == limit) return NULL;
        if (*p != delimiter) break;
        p++;
    }
    return limit - p >= 2 && p[0] == 13 && p[1] == 10 ? p + 2 : NULL;
}

/* The cells of a file that is known to be a report: only quotes, delimiters and the ends of lines are looked for. */
static void fill(const uint8_t *file, uint8_t delimiter, rb_part *cells, size_t count) {
    const uint8_t *p = file;
    for (size_t i = 0; i < count; i++) {
        const uint8_t *start = p;
        if (*p == 34) {
            do p++;
            while (*p != 34);
            p++;
        } else {
            while (*p != delimiter && *p != 13) p++;
        }
        cells[i] = (rb_part){(size_t)(start - file), (size_t)(p - start)};
        p += *p == 13 ? 2 : 1;
    }
}

rb_result plain_read_report(const uint8_t *file, size_t n, uint8_t delimiter, rb_part *cells, size_t cell_count, size_t *columns,
                            size_t *lines) {
    const uint8_t *limit = file + n;
    size_t names, values, count = 0;
    if (!is_delimiter(delimiter)) return 11;
    const uint8_t *p = after_line(file, limit, delimiter, false, &names);
    if (!p || names > RB_MAX_COLUMNS) return 7;
    for (; p < limit; count++) {
        const uint8_t *next = after_line(p, limit, delimiter, true, &values);
        if (!next || values != names) return 256 * (rb_result)(p - file) + 7;
        p = next;
    }
    if (names * (count + 1) > cell_count) return 8;
    fill(file, delimiter, cells, names * (count + 1));
    *columns = names;
    *lines = count;
    return 0;
}

rb_result plain_write_report(const uint8_t *source, size_t n, const rb_part *cells, size_t cell_count, size_t columns, uint8_t delimiter,
                             uint8_t *out, size_t room, size_t *used) {
    if (!is_delimiter(delimiter) || columns < 1 || columns > RB_MAX_COLUMNS) return 11;
    if (cell_count == 0 || cell_count % columns) return 7;
    size_t needed = cell_count + cell_count / columns;
    for (size_t i = 0; i < cell_count; i++) {
        if (cells[i].place > n || cells[i].length > n - cells[i].place) return 7;
        const uint8_t *start = source + cells[i].place, *end = start + cells[i].length;
        if (after_field(start, end, i >= columns) != end) return 7;
        needed += cells[i].length;
    }
    if (needed > room) return 8;
    uint8_t *p = out;
    for (size_t i = 0, left = columns; i < cell_count; i++) {
        memcpy(p, source + cells[i].place, cells[i].length);
        p += cells[i].length;
        if (--left) {
            *p++ = delimiter;
        } else {
            *p++ = 13;
            *p++ = 10;
            left = columns;
        }
    }
    *used = needed;
    return 0;
}

/* ---- the session table */

struct entry {
    uint32_t kind, code, date, time;
};

struct session {
    uint32_t taken, program, count, answered, ticket, spare[3];
    struct entry entries[RB_MAX_COMMANDS];
};

struct table {
    uint32_t max, last, mark, hand;
    struct session sessions[RB_MAX_SESSIONS];
};

static bool is_entry(const struct entry *e) {
    return (e->kind == 0 || (e->kind <= 100 && e->code <= 99999999)) && plain_is_real_date(e->date) && plain_is_real_time(e->time);
}

static bool is_session(const struct table *t, uint32_t s) {
    const struct session *x = &t->sessions[s];
    if (s >= t->max || x->program < 1 || x->program > 8 || x->count < 1 || x->count > RB_MAX_COMMANDS || x->answered > x->count ||
        x->ticket < 1 || x->ticket > t->last)
        return false;
    for (uint32_t i = 0; i < s; i++)
        if (t->sessions[i].taken && t->sessions[i].ticket == x->ticket) return false;
    for (uint32_t c = 0; c < x->answered; c++)
        if (!is_entry(&x->entries[c])) return false;
    return true;
}

static bool is_sound(const struct table *t, size_t n) {
    if (n != sizeof *t || t->max < 1 || t->max > 32 || t->mark >= t->max || t->hand > t->max) return false;
    for (uint32_t s = 0; s < 32; s++)
        if (t->sessions[s].taken && !is_session(t, s)) return false;
    const struct session *held = t->hand ? &t->sessions[t->hand - 1] : 0;
    return !held || (held->taken && held->answered < held->count);
}

uint32_t plain_make(uint8_t *table, size_t n, uint32_t max) {
    if (max < 1 || max > 32) return 11;
    if (n != sizeof(struct table)) return 13;
    struct table *t = (struct table *)(void *)table;
    memset(t, 0, sizeof *t);
    t->max = max;
    t->mark = max - 1;
    return 0;
}

uint32_t plain_place(uint8_t *table, size_t n, uint32_t program, uint32_t count, uint32_t *number, uint32_t *ticket) {
    struct table *t = (struct table *)(void *)table;
    if (!is_sound(t, n)) return 13;
    if (program < 1 || program > 8 || count < 1 || count > RB_MAX_COMMANDS) return 11;
    uint32_t s = 0;
    while (s < t->max && t->sessions[s].taken) s++;
    if (s == t->max) return 9;
    if (t->last == UINT32_MAX) return 12;
    struct session *x = &t->sessions[s];
    x->taken = 1;
    x->program = program;
    x->count = count;
    x->answered = 0;
    x->ticket = ++t->last;
    *number = s;
    *ticket = x->ticket;
    return 0;
}

uint32_t plain_take_up(uint8_t *table, size_t n, uint32_t *number, uint32_t *ticket, uint32_t *command) {
    struct table *t = (struct table *)(void *)table;
    if (!is_sound(t, n)) return 13;
    for (uint32_t i = 0; i < t->max && !t->hand; i++) {
        uint32_t s = (t->mark + 1 + i) % t->max;
        if (t->sessions[s].taken && t->sessions[s].answered < t->sessions[s].count) {
            t->mark = s;
            t->hand = s + 1;
        }
    }
    if (!t->hand) return 14;
    *number = t->hand - 1;
    *ticket = t->sessions[*number].ticket;
    *command = t->sessions[*number].answered + 1;
    return 0;
}

uint32_t plain_answer(uint8_t *table, size_t n, uint32_t ticket, uint32_t command, uint32_t outcome, uint32_t error_class, uint32_t code,
                      uint32_t date, uint32_t time) {
    struct table *t = (struct table *)(void *)table;
    if (!is_sound(t, n)) return 13;
    struct session *x = t->hand ? &t->sessions[t->hand - 1] : 0;
    if (!x || x->ticket != ticket || x->answered + 1 != command) return 10;
    if (!plain_is_real_date(date) || !plain_is_real_time(time)) return 5;
    if (!is_outcome(outcome, error_class, code)) return 7;
    x->entries[x->answered++] = (struct entry){outcome ? error_class + 1 : 0, outcome ? code : 0, date, time};
    t->hand = 0;
    return 0;
}

uint32_t plain_collect(uint8_t *table, size_t n, uint32_t program, uint32_t ticket, uint8_t *out, size_t room, size_t *written) {
    struct table *t = (struct table *)(void *)table;
    char reply[RB_MAX_REPLY_BYTES + 1];
    size_t at = 0;
    if (!is_sound(t, n)) return 13;
    if (program < 1 || program > 8) return 11;
    uint32_t s = 0;
    while (s < t->max && !(t->sessions[s].taken && t->sessions[s].program == program && t->sessions[s].ticket == ticket)) s++;
    if (s == t->max || t->sessions[s].answered < t->sessions[s].count) return 10;
    struct session *x = &t->sessions[s];
    for (uint32_t c = 0; c < x->count; c++) {
        struct entry *e = &x->entries[c];
        at += print_record(reply + at, sizeof reply - at, c + 1, e->kind != 0, e->kind - 1, e->code, (const uint8_t *)"", 0, e->date, e->time);
    }
    if (at > room) return 8;
    memcpy(out, reply, at);
    *written = at;
    x->taken = 0;
    return 0;
}
