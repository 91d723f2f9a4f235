/* Raddlebrush: what a gateway that speaks EUROMAP 63 must get right. Every call of the archive is proved to meet its contract
 * (crates/raddlebrush/src); this header says the same in C. Its inline functions are plain C, which tests/run calls. C99 and C++.
 *
 * Every call takes any bytes and any numbers. Memory is lent as a pointer and a length, and a pointer must be good for its length
 * (a length of 0 still wants a pointer that is not NULL). What is lent for writing must not overlap anything else lent to that call.
 * No call keeps a pointer, allocates, or uses anything but what it is lent: calls on different memory may run at the same time.
 *
 * A call that begins rb_is_ answers yes or no. A call that can refuse, rb_is_due among them, returns RB_DONE, or a refusal, which
 * rb_refusal_number and rb_refusal_place take apart. A refused call changes nothing that it was lent. A call that is done writes what is
 * said below, and nothing else.
 */
#ifndef RADDLEBRUSH_H
#define RADDLEBRUSH_H

#include <stdbool.h>
#include <stddef.h>
#include <stdint.h>

#ifdef __cplusplus
extern "C" {
#endif

/* ---- the version: one more with each change of a name, a type, a number or a size of this header */

#define RB_VERSION 7u

/* The version of the archive. */
uint32_t rb_version(void);

/* Whether the archive is the one that this header speaks of. */
static inline bool rb_is_this_version(void) { return rb_version() == RB_VERSION; }

/* ---- refusals */

/* What a call returns: RB_DONE, or the refusal's number in the low 8 bits with its place in the 56 above. */
typedef uint64_t rb_result;

#define RB_DONE 0u

#define RB_REFUSAL_FILE_TOO_LONG 1u       /* job file over 65,535 bytes */
#define RB_REFUSAL_TOO_FEW_PLACES 2u      /* legal job file with more statements than the lent offset table has places */
#define RB_REFUSAL_NO_TOKEN 3u            /* a byte that starts no token, a lone !, / or - too */
#define RB_REFUSAL_UNEXPECTED 4u          /* a token that no legal file has after the tokens before it */
#define RB_REFUSAL_NOT_REAL 5u            /* a time or date that is not a real one */
#define RB_REFUSAL_TOO_MANY_STATEMENTS 6u /* any token after RB_MAX_STATEMENTS statements */
#define RB_REFUSAL_NOT_A_RECORD 7u        /* record field out of range, bytes that are not a record, or a line that no report has; for
                                           * rb_is_due a number or a string that no job file may have */
#define RB_REFUSAL_TOO_LITTLE_ROOM 8u     /* lent output too short for the whole answer */
#define RB_REFUSAL_ALL_TAKEN 9u           /* every session number taken */
#define RB_REFUSAL_NOT_THE_ONE 10u        /* ticket, program or command isn't the one this call may name now */
#define RB_REFUSAL_OUT_OF_RANGE 11u       /* a number, offset or file name out of its range */
#define RB_REFUSAL_NO_TICKET_LEFT 12u     /* last ticket is 4,294,967,295 */
#define RB_REFUSAL_UNSOUND 13u            /* lent session table unsound */
#define RB_REFUSAL_NOTHING_UNANSWERED 14u /* take up: no unanswered command */
#define RB_REFUSAL_OPEN_STRING 15u        /* a string that meets the end of the file first; place: its opening quote, as for the next */
#define RB_REFUSAL_BROKEN_STRING 16u      /* a string that first meets a forbidden byte (below 32, or 255) or its 256th content byte */
#define RB_REFUSAL_MISSHAPEN 17u          /* an overlong word, or a numeric run that is neither number nor time; place: its first byte */
#define RB_REFUSAL_END_OF_FILE 18u        /* the end of the file, that no legal file has after the tokens before it; place: the length */
#define RB_REFUSAL_NOT_COMPARABLE 19u     /* a number against a string, or an order between strings */

/* The number of a refusal; RB_DONE where there is none. */
static inline uint32_t rb_refusal_number(rb_result result) { return (uint32_t)(result & 255u); }

/* The place of a refusal: for a job file with the numbers 3 to 6 and 15 to 17 a byte of the file, with 18 its length; for a report that is
 * read, with the number 7, the start of the line; 0 for any other. */
static inline size_t rb_refusal_place(rb_result result) { return (size_t)(result >> 8); }

/* A refusal's number in words, for a log. */
static inline const char *rb_refusal_text(uint32_t number) {
    switch (number) {
    case RB_DONE: return "done";
    case RB_REFUSAL_FILE_TOO_LONG: return "the job file is too long";
    case RB_REFUSAL_TOO_FEW_PLACES: return "more statements than places for their offsets";
    case RB_REFUSAL_NO_TOKEN: return "no token begins here";
    case RB_REFUSAL_UNEXPECTED: return "this token may not stand here";
    case RB_REFUSAL_NOT_REAL: return "no real date or time";
    case RB_REFUSAL_TOO_MANY_STATEMENTS: return "too many statements";
    case RB_REFUSAL_NOT_A_RECORD: return "not a record, a line that no report has, or a value that is not permitted";
    case RB_REFUSAL_TOO_LITTLE_ROOM: return "too little room for the answer";
    case RB_REFUSAL_ALL_TAKEN: return "every session number is taken";
    case RB_REFUSAL_NOT_THE_ONE: return "not the ticket, program or command that is due";
    case RB_REFUSAL_OUT_OF_RANGE: return "a number, offset or file name out of range";
    case RB_REFUSAL_NO_TICKET_LEFT: return "no ticket is left";
    case RB_REFUSAL_UNSOUND: return "the session table is unsound";
    case RB_REFUSAL_NOTHING_UNANSWERED: return "no command is unanswered";
    case RB_REFUSAL_OPEN_STRING: return "the string is not closed before the end of the file";
    case RB_REFUSAL_BROKEN_STRING: return "a forbidden byte in the string, or more than 255 bytes";
    case RB_REFUSAL_MISSHAPEN: return "a word that is too long, or neither a number nor a time";
    case RB_REFUSAL_END_OF_FILE: return "the file ends too early";
    case RB_REFUSAL_NOT_COMPARABLE: return "a number against a string, or an order between strings";
    default: return "unknown refusal";
    }
}

/* ---- limits (RB_MAX_) and sizes */

#define RB_MAX_JOB_BYTES 65535u   /* a job file */
#define RB_MAX_STATEMENTS 200u    /* of a job file */
#define RB_MAX_COMMANDS 200u      /* of a session, and so the largest number of a record */
#define RB_MAX_SESSIONS 32u       /* of a table: its MaxSessions is 1 to 32 */
#define RB_MAX_PROGRAM 8u         /* programs are 1 to 8 */
#define RB_MAX_TEXT_BYTES 255u    /* the content of a string */
#define RB_MAX_COLUMNS 64u        /* of a report */
#define RB_MAX_CLASS 99u
#define RB_MAX_CODE 99999999u
#define RB_MAX_RECORD_BYTES 308u  /* ERROR, a number of three digits, a text of 255 bytes */
#define RB_MAX_REPLY_BYTES 10492u /* RB_MAX_COMMANDS ERROR records without text */
#define RB_FILE_NAME_BYTES 12u    /* a session file's name */
#define RB_TABLE_BYTES 103440u    /* a session table, for every MaxSessions */

/* ---- three counts kept apart: each is a structure of one number, so that a compiler refuses one where another is due. It is passed as
 * the number is, and where it lies the number lies. */

typedef struct { uint32_t n; } rb_session_number; /* from 0 on, below MaxSessions */
typedef struct { uint32_t n; } rb_command_number; /* from 1 on */
typedef struct { uint32_t n; } rb_ticket;         /* from 1 on */

/* ---- job files */

/* Reads a whole job file, and puts the offset of each statement into offsets and their count into *statements. Places beyond stay.
 * An UPLOAD or DOWNLOAD without a start clause is refused (RB_REFUSAL_UNEXPECTED at its ;), unless clause_optional is true: then it reads
 * as START IMMEDIATE. Who has no reason to pass true passes false.
 * RB_REFUSAL_FILE_TOO_LONG; then the leftmost of RB_REFUSAL_NO_TOKEN, RB_REFUSAL_OPEN_STRING, RB_REFUSAL_BROKEN_STRING,
 * RB_REFUSAL_MISSHAPEN, RB_REFUSAL_TOO_MANY_STATEMENTS, RB_REFUSAL_NOT_REAL, RB_REFUSAL_UNEXPECTED, RB_REFUSAL_END_OF_FILE; then
 * RB_REFUSAL_TOO_FEW_PLACES. */
rb_result rb_read_job(const uint8_t *file, size_t file_bytes, bool clause_optional, uint32_t *offsets, size_t places, size_t *statements);

#define RB_STATEMENT_JOB 1u
#define RB_STATEMENT_UPLOAD 2u
#define RB_STATEMENT_DOWNLOAD 3u
#define RB_STATEMENT_GETINFO 4u
#define RB_STATEMENT_ABORT 5u

#define RB_ABORTED_REPORT 1u
#define RB_ABORTED_EVENT 2u

#define RB_SOURCE_ACTIVE 1u
#define RB_SOURCE_FILE 2u
#define RB_SOURCE_NAME 3u

#define RB_START_IMMEDIATE 1u
#define RB_START_AT_TIME 2u
#define RB_START_CONDITION 3u

#define RB_OPERATOR_EQUAL 1u
#define RB_OPERATOR_NOT_EQUAL 2u
#define RB_OPERATOR_ABOVE 3u
#define RB_OPERATOR_BELOW 4u
#define RB_OPERATOR_AT_LEAST 5u
#define RB_OPERATOR_AT_MOST 6u

#define RB_OPERAND_NUMBER 1u
#define RB_OPERAND_STRING 2u

/* A part of the bytes that were read: the place of its first byte, and its length. */
typedef struct { size_t place, length; } rb_part;

/* A statement. A string is the place of its opening quote in the file (rb_text_length gives its length), a name is a part of the file.
 * A member that the statement has not is 0. */
typedef struct {
    uint32_t kind;          /* RB_STATEMENT_JOB .. RB_STATEMENT_ABORT */
    size_t offset;          /* the first byte of its keyword */
    size_t next;            /* the place after its ; */
    size_t file_quote;      /* string: the file spec (JOB: the response file) */
    rb_part name;           /* of the job (JOB), or of what is ended (ABORT) */
    uint32_t aborted_kind;  /* what is ended (ABORT): RB_ABORTED_REPORT or RB_ABORTED_EVENT */
    uint32_t source_kind;   /* what is moved (UPLOAD, DOWNLOAD): RB_SOURCE_ACTIVE, RB_SOURCE_FILE or RB_SOURCE_NAME */
    size_t source_quote;    /* string: of RB_SOURCE_FILE */
    rb_part source_name;    /* of RB_SOURCE_NAME */
    uint32_t start_kind;    /* the start clause: RB_START_IMMEDIATE, RB_START_AT_TIME or RB_START_CONDITION */
    uint32_t start_time;    /* hhmmss */
    uint32_t start_date;    /* yyyymmdd, or 0 for none */
    rb_part parameter;      /* what a condition looks at */
    uint32_t operator_kind; /* RB_OPERATOR_EQUAL .. RB_OPERATOR_AT_MOST */
    uint32_t operand_kind;  /* RB_OPERAND_NUMBER or RB_OPERAND_STRING */
    size_t operand_quote;   /* string: of RB_OPERAND_STRING */
    uint32_t scale;         /* of RB_OPERAND_NUMBER: how many of its digits stand after the point */
    int64_t mantissa;       /* of RB_OPERAND_NUMBER: its digits without the point, as a signed whole number */
} rb_statement;

/* The proved call behind rb_read_statement: the members as numbers in their order, a part as its place and its length, and the mantissa
 * by itself. */
#define RB_STATEMENT_NUMBERS 20
rb_result rb_read_statement_numbers(const uint8_t *file, size_t file_bytes, bool clause_optional, size_t at,
                                    uint64_t numbers[RB_STATEMENT_NUMBERS], int64_t *mantissa);

/* Reads the statement that begins at the offset at, up to its ; and nothing beyond; clause_optional as for rb_read_job.
 * RB_REFUSAL_FILE_TOO_LONG, RB_REFUSAL_OUT_OF_RANGE (an offset past the file's length); then the leftmost of RB_REFUSAL_NO_TOKEN,
 * RB_REFUSAL_OPEN_STRING, RB_REFUSAL_BROKEN_STRING, RB_REFUSAL_MISSHAPEN, RB_REFUSAL_NOT_REAL, RB_REFUSAL_UNEXPECTED,
 * RB_REFUSAL_END_OF_FILE. */
static inline rb_result rb_read_statement(const uint8_t *file, size_t file_bytes, bool clause_optional, size_t at,
                                          rb_statement *statement) {
    uint64_t numbers[RB_STATEMENT_NUMBERS];
    int64_t mantissa;
    rb_result result = rb_read_statement_numbers(file, file_bytes, clause_optional, at, numbers, &mantissa);
    if (result != RB_DONE) return result;
    statement->kind = (uint32_t)numbers[0];
    statement->offset = (size_t)numbers[1];
    statement->next = (size_t)numbers[2];
    statement->file_quote = (size_t)numbers[3];
    statement->name.place = (size_t)numbers[4];
    statement->name.length = (size_t)numbers[5];
    statement->aborted_kind = (uint32_t)numbers[6];
    statement->source_kind = (uint32_t)numbers[7];
    statement->source_quote = (size_t)numbers[8];
    statement->source_name.place = (size_t)numbers[9];
    statement->source_name.length = (size_t)numbers[10];
    statement->start_kind = (uint32_t)numbers[11];
    statement->start_time = (uint32_t)numbers[12];
    statement->start_date = (uint32_t)numbers[13];
    statement->parameter.place = (size_t)numbers[14];
    statement->parameter.length = (size_t)numbers[15];
    statement->operator_kind = (uint32_t)numbers[16];
    statement->operand_kind = (uint32_t)numbers[17];
    statement->operand_quote = (size_t)numbers[18];
    statement->scale = (uint32_t)numbers[19];
    statement->mantissa = mantissa;
    return RB_DONE;
}

/* Whether a whole string begins at the place quote of the file. */
bool rb_is_text_at(const uint8_t *file, size_t file_bytes, size_t quote);

/* The length of that string's text, which is the bytes after the quote; 0 where no whole string begins there. */
size_t rb_text_length(const uint8_t *file, size_t file_bytes, size_t quote);

/* ---- whether to start */

/* The present value of a parameter: a number, or a string by its bytes. */
typedef struct {
    uint32_t kind;       /* RB_OPERAND_NUMBER or RB_OPERAND_STRING */
    uint32_t scale;      /* of RB_OPERAND_NUMBER: as for a statement */
    int64_t mantissa;    /* of RB_OPERAND_NUMBER: as for a statement, so that 2.5 is 25 with scale 1 */
    const uint8_t *text; /* of RB_OPERAND_STRING: its bytes, without quotes; not NULL, also where there are none */
    size_t text_bytes;   /* of RB_OPERAND_STRING */
} rb_value;

/* The proved call behind rb_is_due: the members of the statement and of the value as numbers, and 1 or 0 for yes or no. */
rb_result rb_is_due_numbers(const uint8_t *file, size_t file_bytes, uint32_t start_kind, uint32_t start_time, uint32_t start_date,
                            uint32_t operator_kind, uint32_t operand_kind, size_t operand_quote, uint32_t scale, int64_t mantissa,
                            uint32_t date, uint32_t time, uint32_t taken_up, uint32_t value_kind, uint32_t value_scale,
                            int64_t value_mantissa, const uint8_t *value_text, size_t value_text_bytes, uint32_t *due);

/* Whether the start clause of a statement that was read from the file is due at the present date and time. taken_up is the date on which
 * the command was taken up; a clause with a time and no date is due from that time of that day on. value is the parameter's present value;
 * where the clause is no condition any value serves, an empty one too, but not NULL. Numbers are compared by their exact value: 2.50 equals
 * 2.5. Nothing is remembered: with a clock that was set back, a clause that was due may be due no more.
 * RB_REFUSAL_NOT_REAL (a date or time that is given, and of RB_START_AT_TIME the clause's own); for a condition RB_REFUSAL_NOT_A_RECORD (the
 * constant or the value: a mantissa of more than 16 digits, a scale over 15, a text over 255 bytes or with a byte that no string may have,
 * no whole string at the place of the constant; an operator or a kind that is none), then RB_REFUSAL_NOT_COMPARABLE. A start_kind that is
 * none, as in a statement without a start clause, is RB_REFUSAL_NOT_A_RECORD too. */
static inline rb_result rb_is_due(const uint8_t *file, size_t file_bytes, const rb_statement *statement, uint32_t date, uint32_t time,
                                  uint32_t taken_up, const rb_value *value, bool *due) {
    bool text = value->kind == RB_OPERAND_STRING;
    uint32_t yes = 0;
    rb_result result = rb_is_due_numbers(file, file_bytes, statement->start_kind, statement->start_time, statement->start_date,
                                         statement->operator_kind, statement->operand_kind, statement->operand_quote, statement->scale,
                                         statement->mantissa, date, time, taken_up, value->kind, value->scale, value->mantissa,
                                         text ? value->text : file, text ? value->text_bytes : 0, &yes);
    if (result != RB_DONE) return result;
    *due = yes == 1;
    return RB_DONE;
}

/* ---- dates (yyyymmdd) and times (hhmmss), as whole numbers */

/* February has 29 days when the year divides by 4, except years that divide by 100 and not by 400; otherwise 28. */
bool rb_is_real_date(uint32_t date);
bool rb_is_real_time(uint32_t time);

/* ---- response records */

#define RB_OUTCOME_PROCESSED 0u
#define RB_OUTCOME_ERROR 1u

/* Writes a record at the start of out, and its length into *used. The class and code of RB_OUTCOME_PROCESSED are not looked at; an
 * outcome that is neither is out of range.
 * RB_REFUSAL_NOT_A_RECORD (number, outcome, class, code, text), RB_REFUSAL_NOT_REAL (date, time), RB_REFUSAL_TOO_LITTLE_ROOM. */
rb_result rb_write_record(rb_command_number number, uint32_t outcome, uint32_t error_class, uint32_t code, const uint8_t *text,
                          size_t text_bytes, uint32_t date, uint32_t time, uint8_t *out, size_t room, size_t *used);

/* A record. */
typedef struct {
    rb_command_number number;
    uint32_t outcome;     /* RB_OUTCOME_PROCESSED or RB_OUTCOME_ERROR */
    uint32_t error_class; /* 0 for RB_OUTCOME_PROCESSED */
    uint32_t code;        /* 0 for RB_OUTCOME_PROCESSED */
    rb_part text;         /* of the bytes that were read */
    uint32_t date;
    uint32_t time;
} rb_record;

/* The proved call behind rb_read_record: the members as numbers in their order, the text as its place and its length. */
#define RB_RECORD_NUMBERS 8
rb_result rb_read_record_numbers(const uint8_t *bytes, size_t length, uint64_t numbers[RB_RECORD_NUMBERS]);

/* Reads bytes as one whole record and nothing beyond. RB_REFUSAL_NOT_A_RECORD. */
static inline rb_result rb_read_record(const uint8_t *bytes, size_t length, rb_record *record) {
    uint64_t numbers[RB_RECORD_NUMBERS];
    rb_result result = rb_read_record_numbers(bytes, length, numbers);
    if (result != RB_DONE) return result;
    record->number.n = (uint32_t)numbers[0];
    record->outcome = (uint32_t)numbers[1];
    record->error_class = (uint32_t)numbers[2];
    record->code = (uint32_t)numbers[3];
    record->text.place = (size_t)numbers[4];
    record->text.length = (size_t)numbers[5];
    record->date = (uint32_t)numbers[6];
    record->time = (uint32_t)numbers[7];
    return RB_DONE;
}

/* ---- report files: a line of names, then none or more lines of as many values. Between two of a line stands the delimiter, which is a
 * comma, a semicolon, a vertical bar or a tab, and each line is ended by CR LF. A name is a word that is not reserved, and a value is a
 * number or a string, as in job files.
 *
 * The cells of a report are its names and then its values, in the order of the file, each as a part; a string has its quotes there. */

/* The proved call behind rb_read_report: each cell as its place and its length. */
rb_result rb_read_report_numbers(const uint8_t *file, size_t file_bytes, uint8_t delimiter, size_t *cells, size_t cell_numbers,
                                 size_t *columns, size_t *lines);

/* Reads a whole report file, and puts its cells into cells, the count of its columns into *columns, and the count of its lines of values
 * into *lines: these are *columns * (*lines + 1) cells, and file_bytes / 2 are always enough. Cells beyond stay.
 * RB_REFUSAL_OUT_OF_RANGE (delimiter); RB_REFUSAL_NOT_A_RECORD, at the start of the first line that does not fit;
 * RB_REFUSAL_TOO_LITTLE_ROOM (cells).
 * A part is two numbers of one type, so that nothing lies between them or after them: parts in a row are twice as many numbers in a row.
 * They are numbers of the type by which the proved call reaches them, and no memory holds so many parts that their double is too large. */
static inline rb_result rb_read_report(const uint8_t *file, size_t file_bytes, uint8_t delimiter, rb_part *cells, size_t cell_count,
                                       size_t *columns, size_t *lines) {
    return rb_read_report_numbers(file, file_bytes, delimiter, (size_t *)cells, 2 * cell_count, columns, lines);
}

/* The proved call behind rb_write_report: each cell as its place and its length. An odd count of numbers is no count of cells. */
rb_result rb_write_report_numbers(const uint8_t *source, size_t source_bytes, const size_t *cells, size_t cell_numbers, size_t columns,
                                  uint8_t delimiter, uint8_t *out, size_t out_bytes, size_t *used);

/* Writes the report of these cells, which are parts of the source, at the start of out, and its length into *used: the sum of the cells'
 * lengths, of one for each cell, and of one for each line.
 * RB_REFUSAL_OUT_OF_RANGE (delimiter, columns); RB_REFUSAL_NOT_A_RECORD (no cells, a line that is not whole, a cell that is no part of the
 * source, or not one name or one value); RB_REFUSAL_TOO_LITTLE_ROOM. Parts are handed on as numbers, as above. */
static inline rb_result rb_write_report(const uint8_t *source, size_t source_bytes, const rb_part *cells, size_t cell_count,
                                        size_t columns, uint8_t delimiter, uint8_t *out, size_t out_bytes, size_t *used) {
    return rb_write_report_numbers(source, source_bytes, (const size_t *)cells, 2 * cell_count, columns, delimiter, out, out_bytes, used);
}

/* ---- names of session files */

#define RB_FILE_REQUEST 0u
#define RB_FILE_RESPONSE 1u

/* Reads a file name of a table with that MaxSessions: the session's number, and RB_FILE_REQUEST or RB_FILE_RESPONSE.
 * RB_REFUSAL_OUT_OF_RANGE. */
rb_result rb_read_file_name(const uint8_t *name, size_t name_bytes, uint32_t max, rb_session_number *number, uint32_t *kind);

/* Writes a file name at the start of out, and its length, RB_FILE_NAME_BYTES, into *used.
 * RB_REFUSAL_OUT_OF_RANGE (MaxSessions, number, kind), RB_REFUSAL_TOO_LITTLE_ROOM. */
rb_result rb_write_file_name(rb_session_number number, uint32_t kind, uint32_t max, uint8_t *out, size_t room, size_t *used);

/* ---- the session table, in RB_TABLE_BYTES lent bytes. A ticket names one placing for ever; a session's number is used again once its
 * reply is collected.
 *
 * A table made by an archive of version 6 or before has another size, and every call refuses it (RB_REFUSAL_UNSOUND): it must be made anew,
 * in memory of this size. */

/* Makes a fresh table for MaxSessions 1 to 32, whatever the bytes were. RB_REFUSAL_OUT_OF_RANGE, RB_REFUSAL_UNSOUND (not a table's
 * size). */
rb_result rb_table_make(uint8_t *table, size_t table_bytes, uint32_t max);

/* Places a session of a program (1 to 8) with that many commands (1 to RB_MAX_COMMANDS).
 * RB_REFUSAL_UNSOUND, RB_REFUSAL_OUT_OF_RANGE, RB_REFUSAL_ALL_TAKEN, RB_REFUSAL_NO_TICKET_LEFT. */
rb_result rb_table_place(uint8_t *table, size_t table_bytes, uint32_t program, uint32_t commands, rb_session_number *number,
                         rb_ticket *ticket);

/* Takes up the next command, or gives the one in hand again. RB_REFUSAL_UNSOUND, RB_REFUSAL_NOTHING_UNANSWERED. */
rb_result rb_table_take_up(uint8_t *table, size_t table_bytes, rb_session_number *number, rb_ticket *ticket, rb_command_number *command);

/* Answers the command in hand. The class and code of RB_OUTCOME_PROCESSED are not looked at; an outcome that is neither is out of range.
 * RB_REFUSAL_UNSOUND, RB_REFUSAL_NOT_THE_ONE, RB_REFUSAL_NOT_REAL, RB_REFUSAL_NOT_A_RECORD. */
rb_result rb_table_answer(uint8_t *table, size_t table_bytes, rb_ticket ticket, rb_command_number command, uint32_t outcome,
                          uint32_t error_class, uint32_t code, uint32_t date, uint32_t time);

/* Writes the reply of a closed session, its records in order without text, at the start of out, and its length into *used. Its number
 * is open again. RB_REFUSAL_UNSOUND, RB_REFUSAL_OUT_OF_RANGE (program), RB_REFUSAL_NOT_THE_ONE, RB_REFUSAL_TOO_LITTLE_ROOM. */
rb_result rb_table_collect(uint8_t *table, size_t table_bytes, uint32_t program, rb_ticket ticket, uint8_t *out, size_t room,
                           size_t *used);

/* Whether any bytes are a sound table: those that the calls above, rb_table_make apart, do not refuse with RB_REFUSAL_UNSOUND. */
bool rb_is_sound(const uint8_t *table, size_t table_bytes);

/* A table's bytes, for who must look into one.
 * Rows of four numbers, each of four bytes, low byte first.
 * Row 0: MaxSessions, the last ticket, the number last taken up, and what is in hand (0, or one more than the session's number).
 * In a fresh table, where none was taken up yet, MaxSessions - 1 stands for the number last taken up, so that 0 comes first.
 * Then for each session 2 + RB_MAX_COMMANDS rows: two for its head, and a row for each command.
 * The head: whether the number is taken (0 where it is open; any other number where it is taken, and 1 is what is written), program,
 * command count, answers so far; then the ticket, and three numbers that are spare and say nothing.
 * The row of an answered command: 0 for PROCESSED or one more than the class, the code, date, time.
 * The code of a PROCESSED says nothing, whatever number stands there; rb_table_answer puts 0 there.
 * The rest of a slot whose number is open says nothing, and neither does the row of a command that is not answered. */

#ifdef __cplusplus
}
#endif

#endif
