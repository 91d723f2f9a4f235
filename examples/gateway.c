/* A small gateway over a folder that stands for the share: gateway SHARE. Each line of its input is a round and gives its date and time
 * (yyyymmdd hhmmss), as a timer and a clock would.
 *
 * A host program puts SESSnnnn.REQ there. In this example its first line is the program's number, and each further line names a job
 * file, which is one command. The gateway places the request, takes the commands up one after the other, reads each job file, answers,
 * and writes the reply as SESSnnnn.RSP. The program reads its reply and removes it: so it collects, and only then do the request and the
 * number go. A request that cannot be served is left alone, with a line in the log: one that is refused, whose number is held meanwhile so
 * that it stops no other, and one under another number than the table gives, which is the lowest open one.
 *
 * The table lives as long as this program does. A gateway that may be started anew while sessions stand must keep the table's bytes, and
 * what struct session holds, where they outlive it. */
#include <errno.h>
#include <stdio.h>
#include <stdlib.h>
#include <string.h>

#include "raddlebrush.h"

#define MAX_SESSIONS 8

/* How many bytes of a job file's name are read, and the format that reads so many of a line. */
#define JOB_NAME_BYTES 63
#define IN_QUOTES(number) #number
#define LINE_OF(bytes) " %" IN_QUOTES(bytes) "[^\r\n]%*[^\n]"

/* What the gateway knows of the session under a number; without a ticket there is none. */
struct session {
    rb_ticket ticket;
    uint32_t program, count;
    bool written;                   /* its reply stands in the share */
    bool held;                      /* only the number is held: its request is refused */
    char jobs[RB_MAX_COMMANDS + 1][JOB_NAME_BYTES + 1]; /* of each command, and one place that shows that there are too many */
};

static uint8_t table[RB_TABLE_BYTES], copy[RB_TABLE_BYTES];
static struct session sessions[MAX_SESSIONS];
static const char *share;
static uint32_t date, time_of_day;

/* For calls that have no reason to refuse. */
static void must(rb_result result, const char *what) {
    if (result == RB_DONE) return;
    printf("%s: refused with %u\n", what, rb_refusal_number(result));
    exit(1);
}

/* The path of a session's file. */
static const char *session_file(uint32_t number, uint32_t kind) {
    static char path[400];
    uint8_t name[RB_FILE_NAME_BYTES];
    size_t used;
    must(rb_write_file_name((rb_session_number){number}, kind, MAX_SESSIONS, name, sizeof name, &used), "name");
    snprintf(path, sizeof path, "%s/%.*s", share, (int)used, (const char *)name);
    return path;
}

/* ---- requests */

/* The program's number and the job of each command, one to a line. */
static bool read_request(FILE *f, struct session *s) {
    if (fscanf(f, "%9u%*[^\n]", &s->program) == 1)
        while (s->count <= RB_MAX_COMMANDS && fscanf(f, LINE_OF(JOB_NAME_BYTES), s->jobs[s->count]) == 1) s->count++;
    return !ferror(f);
}

/* Holds the number of a refused request until the next round: the table gives the next number to the next request. */
static void hold(uint32_t n) {
    struct session s = {.program = 1, .count = 1, .held = true};
    rb_session_number number;
    memcpy(copy, table, sizeof table);
    if (rb_table_place(copy, sizeof copy, s.program, s.count, &number, &s.ticket) != RB_DONE || number.n != n) return;
    memcpy(table, copy, sizeof table);
    sessions[n] = s;
}

/* Places the request under the number n, if the share has one. It is placed in a copy of the table first: the number that the table gives
 * is the session's, and a file under another number would get the reply of somebody else. A refused request stays where it is: its program
 * waits under that number, and if the file were gone another program would take the number, and the first one its reply. */
static void place_request(uint32_t n) {
    struct session s = {.count = 0};
    rb_session_number number;
    if (sessions[n].ticket.n) return;
    FILE *f = fopen(session_file(n, RB_FILE_REQUEST), "r");
    if (!f && errno == ENOENT) return;
    bool was_read = f && read_request(f, &s);
    if (f) fclose(f);
    if (!was_read) {
        printf("request %u left alone: it cannot be read\n", n);
        hold(n);
        return;
    }
    memcpy(copy, table, sizeof table);
    rb_result no = rb_table_place(copy, sizeof copy, s.program, s.count, &number, &s.ticket);
    if (no != RB_DONE) {
        printf("request %u left alone: program %u, %u commands, refused with %u\n", n, s.program, s.count, rb_refusal_number(no));
        hold(n);
        return;
    }
    if (number.n != n) {
        printf("request %u left alone: the table gives %u\n", n, number.n);
        return;
    }
    memcpy(table, copy, sizeof table);
    sessions[n] = s;
    printf("session %u: placed by program %u with ticket %u, %u commands\n", n, s.program, s.ticket.n, s.count);
}

/* ---- commands */

static void show_statement(const uint8_t *file, size_t n, uint32_t offset) {
    static const char *const kinds[] = {"", "JOB", "UPLOAD", "DOWNLOAD", "GETINFO", "ABORT"};
    rb_statement s;
    must(rb_read_statement(file, n, false, offset, &s), "statement");
    printf("    %s", kinds[s.kind]);
    if (s.kind != RB_STATEMENT_ABORT)
        printf(" \"%.*s\"", (int)rb_text_length(file, n, s.file_quote), (const char *)file + s.file_quote + 1);
    if (s.name.length) printf(" %.*s", (int)s.name.length, (const char *)file + s.name.place);
    if (s.start_kind == RB_START_AT_TIME) printf(", not before %06u", s.start_time);
    if (s.operand_kind == RB_OPERAND_NUMBER)
        printf(", on %.*s and %lld (scale %u)", (int)s.parameter.length, (const char *)file + s.parameter.place, (long long)s.mantissa,
               s.scale);
    printf("\n");
}

/* Reads a job file of the share: RB_DONE, or what it is refused with, an UPLOAD or DOWNLOAD without its start clause too. A name that fills
 * its place, and so may be cut, is out of range, and so is one that leads elsewhere or to no file. */
static rb_result run_job(const char *name) {
    static uint8_t file[RB_MAX_JOB_BYTES + 1];
    uint32_t offsets[RB_MAX_STATEMENTS];
    size_t statements, n;
    char path[400];
    snprintf(path, sizeof path, "%s/%s", share, name);
    FILE *f = strlen(name) >= JOB_NAME_BYTES || strchr(name, '/') ? NULL : fopen(path, "rb");
    if (!f) return RB_REFUSAL_OUT_OF_RANGE;
    n = fread(file, 1, sizeof file, f);
    bool was_read = !ferror(f);
    fclose(f);
    if (!was_read) return RB_REFUSAL_OUT_OF_RANGE;
    rb_result no = rb_read_job(file, n, false, offsets, RB_MAX_STATEMENTS, &statements);
    if (no != RB_DONE) return no;
    for (size_t i = 0; i < statements; i++) show_statement(file, n, offsets[i]);
    return RB_DONE;
}

static void serve(rb_session_number number, rb_ticket ticket, rb_command_number command) {
    const char *job = sessions[number.n].jobs[command.n - 1];
    if (sessions[number.n].held) {
        must(rb_table_answer(table, sizeof table, ticket, command, RB_OUTCOME_ERROR, 0, 0, date, time_of_day), "answer");
        return;
    }
    printf("session %u, command %u: %s\n", number.n, command.n, job);
    rb_result no = run_job(job);
    if (no != RB_DONE) printf("    refused: %u at %zu\n", rb_refusal_number(no), rb_refusal_place(no));
    uint32_t outcome = no == RB_DONE ? RB_OUTCOME_PROCESSED : RB_OUTCOME_ERROR;
    must(rb_table_answer(table, sizeof table, ticket, command, outcome, 1, rb_refusal_number(no), date, time_of_day), "answer");
}

/* ---- replies */

/* Writes the reply of a session that is closed, where no reply lies. A collected reply is gone from the table, so it is taken from a copy:
 * what cannot be written yet is there in the next round. */
static void write_reply(uint32_t n) {
    struct session *s = &sessions[n];
    uint8_t reply[RB_MAX_REPLY_BYTES];
    size_t used;
    if (!s->ticket.n || s->written || s->held) return;
    memcpy(copy, table, sizeof table);
    if (rb_table_collect(copy, sizeof copy, s->program, s->ticket, reply, sizeof reply, &used) != RB_DONE) return;
    FILE *f = fopen(session_file(n, RB_FILE_RESPONSE), "wbx");
    if (!f) {
        printf("session %u: its reply waits, %s\n", n, errno == EEXIST ? "an unread one lies there" : "it cannot be written");
        return;
    }
    bool whole = fwrite(reply, 1, used, f) == used;
    s->written = fclose(f) == 0 && whole;
    if (!s->written) remove(session_file(n, RB_FILE_RESPONSE));
    printf("session %u: %s\n", n, s->written ? "its reply is written" : "its reply waits, it cannot be written");
}

static bool is_gone(const char *path) {
    FILE *f = fopen(path, "rb");
    if (!f) return errno == ENOENT;
    fclose(f);
    return false;
}

/* Collects for a program that has removed its reply, and lets the request and the number go. Where the request is gone as well the number
 * stays taken, since a share that is out of reach looks like that. A number that was only held is open again. */
static void let_go(uint32_t n) {
    struct session *s = &sessions[n];
    uint8_t reply[RB_MAX_REPLY_BYTES];
    size_t used;
    if (s->held) {
        must(rb_table_collect(table, sizeof table, s->program, s->ticket, reply, sizeof reply, &used), "collect");
        memset(s, 0, sizeof *s);
    }
    if (!s->written || !is_gone(session_file(n, RB_FILE_RESPONSE))) return;
    if (remove(session_file(n, RB_FILE_REQUEST))) {
        printf("session %u: its number stays taken, its request cannot be removed\n", n);
        return;
    }
    must(rb_table_collect(table, sizeof table, s->program, s->ticket, reply, sizeof reply, &used), "collect");
    printf("session %u: program %u has its reply, the number is open again\n", n, s->program);
    memset(s, 0, sizeof *s);
}

static void a_round(void) {
    rb_session_number number;
    rb_ticket ticket;
    rb_command_number command;
    for (uint32_t n = 0; n < MAX_SESSIONS; n++) let_go(n);
    for (uint32_t n = 0; n < MAX_SESSIONS; n++) place_request(n);
    while (rb_table_take_up(table, sizeof table, &number, &ticket, &command) == RB_DONE) serve(number, ticket, command);
    for (uint32_t n = 0; n < MAX_SESSIONS; n++) write_reply(n);
}

int main(int argc, char **argv) {
    if (argc != 2 || strlen(argv[1]) > 300) return 2;
    share = argv[1];
    must(rb_table_make(table, sizeof table, MAX_SESSIONS), "make");
    while (scanf("%u %u", &date, &time_of_day) == 2) {
        if (rb_is_real_date(date) && rb_is_real_time(time_of_day)) a_round();
        else printf("no round: the clock gives no real date and time\n");
        printf("--\n");
        fflush(stdout);
    }
    return 0;
}
