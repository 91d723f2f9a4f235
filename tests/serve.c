/* Makes the calls that it is asked for on standard input, and says on standard output what they answered and what they left in the
 * memory lent to them. tests/main.rs asks. It names the few functions of the C library itself, so that it compiles for x86-64 without
 * that library's headers.
 *
 * A request is one byte for the call, then its arguments: numbers of eight bytes, and bytes after their count. An answer stands after the
 * count of its bytes. Answers are sent when 'F' asks for them, so that neither side waits for the other. */
#include "raddlebrush.h"

long read(int, void *, unsigned long);
long write(int, const void *, unsigned long);
void *realloc(void *, unsigned long);
void *memcpy(void *, const void *, unsigned long);
void *memset(void *, int, unsigned long);
int memcmp(const void *, const void *, unsigned long);
void _exit(int);

/* ---- what comes in, and what goes out */

static uint8_t in[1 << 16];
static size_t in_at, in_end;

static bool is_more(void) {
    if (in_at < in_end) return true;
    long n = read(0, in, sizeof in);
    if (n <= 0) return false;
    in_at = 0;
    in_end = (size_t)n;
    return true;
}

static int byte_in(void) { return is_more() ? in[in_at++] : -1; }

static void bytes_in(uint8_t *bytes, size_t n) {
    for (size_t at = 0, some; at < n; at += some, in_at += some) {
        if (!is_more()) _exit(2);
        some = in_end - in_at < n - at ? in_end - in_at : n - at;
        memcpy(bytes + at, in + in_at, some);
    }
}

static uint64_t number_in(void) {
    uint64_t n = 0;
    for (int i = 0; i < 8; i++) {
        int b = byte_in();
        if (b < 0) _exit(2);
        n |= (uint64_t)b << (8 * i);
    }
    return n;
}

static uint8_t *out;
static size_t out_at, out_room;

static void bytes_out(const void *bytes, size_t n) {
    if (out_at + n > out_room) {
        out_room = 2 * (out_at + n);
        out = realloc(out, out_room);
        if (!out) _exit(3);
    }
    memcpy(out + out_at, bytes, n);
    out_at += n;
}

static void number_out(uint64_t n) {
    uint8_t b[8];
    for (int i = 0; i < 8; i++) b[i] = (uint8_t)(n >> (8 * i));
    bytes_out(b, 8);
}

/* The count of the bytes of the answer that began at start. */
static void count_out(size_t start) {
    size_t n = out_at - start - 8;
    for (int i = 0; i < 8; i++) out[start + (size_t)i] = (uint8_t)(n >> (8 * i));
}

static void flush(void) {
    for (size_t at = 0; at < out_at;) {
        long n = write(1, out + at, out_at - at);
        if (n <= 0) _exit(4);
        at += (size_t)n;
    }
    out_at = 0;
}

/* ---- memory lent to a call: 32 bytes stand before it and after it, and must stay as they are */

struct lent {
    uint8_t *all;
    size_t all_room, bytes;
};

static uint8_t *lend(struct lent *m, size_t bytes) {
    if (bytes + 64 > m->all_room) {
        m->all_room = 2 * (bytes + 64);
        m->all = realloc(m->all, m->all_room);
        if (!m->all) _exit(3);
    }
    m->bytes = bytes;
    memset(m->all, 0xC5, 32);
    memset(m->all + 32 + bytes, 0xC5, 32);
    return m->all + 32;
}

static uint8_t *lend_in(struct lent *m) {
    size_t n = (size_t)number_in();
    uint8_t *p = lend(m, n);
    bytes_in(p, n);
    return p;
}

static void see_edges(struct lent *m) {
    for (int i = 0; i < 32; i++)
        if (m->all[i] != 0xC5 || m->all[32 + m->bytes + (size_t)i] != 0xC5) _exit(5);
}

static void lent_out(struct lent *m) {
    see_edges(m);
    bytes_out(m->all + 32, m->bytes);
}

/* ---- the calls. Numbers that a call may write are 77 before it. */

#define U32 (uint32_t)number_in()

static struct lent first, second, third, table, old;

#define ROW 16
#define BLOCK (256 * ROW)

/* What the last call on the table changed: rows of 16 bytes, each after its number. Most calls change few, so that blocks of many are
 * compared first. */
static void changes_out(void) {
    see_edges(&table);
    uint8_t *now = table.all + 32, *was = old.all + 32;
    for (size_t block = 0, end; block < table.bytes; block = end) {
        end = table.bytes - block < BLOCK ? table.bytes : block + BLOCK;
        if (!memcmp(now + block, was + block, end - block)) continue;
        for (size_t at = block; at < end; at += ROW) {
            size_t n = end - at < ROW ? end - at : ROW;
            if (!memcmp(now + at, was + at, n)) continue;
            number_out(at);
            bytes_out(now + at, n);
            memcpy(was + at, now + at, n);
        }
    }
    number_out(UINT64_MAX);
}

static void table_call(int call) {
    uint8_t *t = table.all + 32;
    size_t n = table.bytes, used = 77;
    rb_session_number number = {77};
    rb_ticket ticket = {77};
    rb_command_number command = {77};
    uint64_t a[8];
    int arguments = call == 'm' ? 1 : call == 'p' ? 2 : call == 'a' ? 7 : call == 'c' ? 3 : 0;
    for (int i = 0; i < arguments; i++) a[i] = number_in();
#define A(i) (uint32_t)a[i]
#define TICKET(i) (rb_ticket){A(i)}
#define COMMAND(i) (rb_command_number){A(i)}
#define SESSION(i) (rb_session_number){A(i)}
    if (call == 'm') number_out(rb_table_make(t, n, A(0)));
    if (call == 'p') number_out(rb_table_place(t, n, A(0), A(1), &number, &ticket));
    if (call == 'u') number_out(rb_table_take_up(t, n, &number, &ticket, &command));
    if (call == 'a') number_out(rb_table_answer(t, n, TICKET(0), COMMAND(1), A(2), A(3), A(4), A(5), A(6)));
    if (call == 'i') number_out(rb_is_sound(t, n));
    if (call == 'c') {
        uint8_t *room = lend(&first, (size_t)a[2]);
        memset(room, 0x5A, first.bytes);
        number_out(rb_table_collect(t, n, A(0), TICKET(1), room, first.bytes, &used));
        number_out(used);
        lent_out(&first);
    }
    if (call == 'p' || call == 'u') {
        number_out(number.n);
        number_out(ticket.n);
    }
    if (call == 'u') number_out(command.n);
    changes_out();
}

static void numbers_before(uint64_t *numbers, int n) {
    for (int i = 0; i < n; i++) numbers[i] = 77;
}

static void numbers_out(const uint64_t *numbers, int n) {
    for (int i = 0; i < n; i++) number_out(numbers[i]);
}

/* The members of a statement and of a record, in the order in which tests/calls.rs has their numbers. */
#define STATEMENT(X) \
    X(kind) X(offset) X(next) X(file_quote) X(name.place) X(name.length) X(aborted_kind) X(source_kind) X(source_quote) \
    X(source_name.place) X(source_name.length) X(start_kind) X(start_time) X(start_date) X(parameter.place) X(parameter.length) \
    X(operator_kind) X(operand_kind) X(operand_quote) X(scale) X(mantissa)
#define RECORD(X) X(number.n) X(outcome) X(error_class) X(code) X(text.place) X(text.length) X(date) X(time)
#define BEFORE(member) s.member = 77;
#define MEMBER_OUT(member) number_out((uint64_t)s.member);

static void file_call(int call) {
    uint8_t *file = lend_in(&first);
    size_t n = first.bytes;
    if (call == 'J') {
        bool optional = number_in() != 0;
        size_t places = (size_t)number_in(), statements = 77;
        uint8_t *offsets = lend(&second, 4 * places);
        memset(offsets, 0x5A, second.bytes);
        number_out(rb_read_job(file, n, optional, (uint32_t *)(void *)offsets, places, &statements));
        number_out(statements);
        lent_out(&second);
    }
    if (call == 'S') {
        bool optional = number_in() != 0;
        size_t at = (size_t)number_in();
        uint64_t numbers[RB_STATEMENT_NUMBERS];
        rb_statement s;
        s.mantissa = 77;
        numbers_before(numbers, RB_STATEMENT_NUMBERS);
        number_out(rb_read_statement_numbers(file, n, optional, at, numbers, &s.mantissa));
        numbers_out(numbers, RB_STATEMENT_NUMBERS);
        number_out((uint64_t)s.mantissa);
        STATEMENT(BEFORE);
        number_out(rb_read_statement(file, n, optional, at, &s));
        STATEMENT(MEMBER_OUT);
    }
    if (call == 'T') {
        size_t quote = (size_t)number_in();
        number_out(rb_is_text_at(file, n, quote));
        number_out(rb_text_length(file, n, quote));
    }
    if (call == 'R') {
        uint64_t numbers[RB_RECORD_NUMBERS];
        rb_record s;
        numbers_before(numbers, RB_RECORD_NUMBERS);
        number_out(rb_read_record_numbers(file, n, numbers));
        numbers_out(numbers, RB_RECORD_NUMBERS);
        RECORD(BEFORE);
        number_out(rb_read_record(file, n, &s));
        RECORD(MEMBER_OUT);
    }
    if (call == 'N') {
        rb_session_number number = {77};
        uint32_t kind = 77;
        number_out(rb_read_file_name(file, n, U32, &number, &kind));
        number_out(number.n);
        number_out(kind);
    }
    if (call == 'W') {
        uint64_t a[7];
        for (int i = 0; i < 7; i++) a[i] = number_in();
        uint8_t *room = lend(&second, (size_t)a[6]);
        size_t used = 77;
        memset(room, 0x5A, second.bytes);
        number_out(rb_write_record(COMMAND(0), A(1), A(2), A(3), file, n, A(4), A(5), room, second.bytes, &used));
        number_out(used);
        lent_out(&second);
    }
    see_edges(&first);
}

/* The calls on reports are made with numbers, and then with the parts that these are, each of two numbers. */
static void report_read(void) {
    uint8_t *file = lend_in(&first), delimiter = (uint8_t)number_in();
    size_t n = first.bytes, count = (size_t)number_in();
    for (int parts = 0; parts < 2; parts++) {
        void *cells = lend(&second, 8 * count);
        size_t columns = 77, lines = 77;
        memset(cells, 0x5A, second.bytes);
        number_out(parts ? rb_read_report(file, n, delimiter, cells, count / 2, &columns, &lines)
                         : rb_read_report_numbers(file, n, delimiter, cells, count, &columns, &lines));
        number_out(columns);
        number_out(lines);
        lent_out(&second);
    }
    see_edges(&first);
}

static void report_written(void) {
    uint8_t *source = lend_in(&first);
    void *cells = lend_in(&second);
    size_t n = first.bytes, count = second.bytes / 8, columns = (size_t)number_in();
    uint8_t delimiter = (uint8_t)number_in();
    size_t room = (size_t)number_in();
    for (int parts = 0; parts < 2; parts++) {
        uint8_t *bytes = lend(&third, room);
        size_t used = 77;
        memset(bytes, 0x5A, room);
        number_out(parts ? rb_write_report(source, n, cells, count / 2, columns, delimiter, bytes, room, &used)
                         : rb_write_report_numbers(source, n, cells, count, columns, delimiter, bytes, room, &used));
        number_out(used);
        lent_out(&third);
    }
    see_edges(&first);
    see_edges(&second);
}

/* A start clause is decided by its numbers, and then by the structures that hold them. What is lent there for yes or no has the byte 77
 * before, which is neither. */
static void start_decided(void) {
    uint8_t *file = lend_in(&first), *text = lend_in(&second);
    uint64_t a[14];
    for (int i = 0; i < 14; i++) a[i] = number_in();
    uint32_t due = 77;
    number_out(rb_is_due_numbers(file, first.bytes, A(0), A(1), A(2), A(3), A(4), (size_t)a[5], A(6), (int64_t)a[7], A(8), A(9), A(10),
                                 A(11), A(12), (int64_t)a[13], text, second.bytes, &due));
    number_out(due);
    rb_statement s;
    STATEMENT(BEFORE);
    s.start_kind = A(0);
    s.start_time = A(1);
    s.start_date = A(2);
    s.operator_kind = A(3);
    s.operand_kind = A(4);
    s.operand_quote = (size_t)a[5];
    s.scale = A(6);
    s.mantissa = (int64_t)a[7];
    rb_value value = {.kind = A(11), .scale = A(12), .mantissa = (int64_t)a[13], .text = text, .text_bytes = second.bytes};
    bool is_due;
    uint8_t left;
    memset(&is_due, 77, 1);
    number_out(rb_is_due(file, first.bytes, &s, A(8), A(9), A(10), &value, &is_due));
    memcpy(&left, &is_due, 1);
    number_out(left);
    see_edges(&first);
    see_edges(&second);
}

static void name_written(void) {
    uint64_t a[4];
    for (int i = 0; i < 4; i++) a[i] = number_in();
    uint8_t *room = lend(&first, (size_t)a[3]);
    size_t used = 77;
    memset(room, 0x5A, first.bytes);
    number_out(rb_write_file_name(SESSION(0), A(1), A(2), room, first.bytes, &used));
    number_out(used);
    lent_out(&first);
}

static void answered(int call) {
    switch (call) {
    case 'm': case 'p': case 'u': case 'a': case 'c': case 'i': table_call(call); break;
    case 'P': report_read(); break;
    case 'Q': report_written(); break;
    case 'B': start_decided(); break;
    case 'O': name_written(); break;
    case 'D': {
        uint32_t n = U32;
        number_out(rb_is_real_date(n));
        number_out(rb_is_real_time(n));
        break;
    }
    default: file_call(call);
    }
}

int main(void) {
    for (;;) {
        int call = byte_in();
        if (call < 0) return 0;
        if (call == 'F') {
            flush();
        } else if (call == 'L') { /* a table's bytes are lent from here on */
            lend_in(&table);
            memcpy(lend(&old, table.bytes), table.all + 32, table.bytes);
        } else {
            size_t start = out_at;
            number_out(0);
            answered(call);
            count_out(start);
        }
    }
}
