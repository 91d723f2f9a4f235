/* A reader of job files that re2c makes the lexer of: what rb_read_job is measured against. It gives the same answers (bench.c compares
 * them). Like most readers of this kind it wants a byte 0 after the file, which rb_read_job does not. */
#include "plain.h"

enum class {
    C_JOB, C_RESPONSE, C_UPLOAD, C_DOWNLOAD, C_GETINFO, C_ABORT, C_REPORT, C_EVENT, C_START, C_ACTIVE, C_IMMEDIATE, C_RESERVED, C_NAME,
    C_TIME_FROM, C_NUMBER, C_TIME, C_STRING, C_OPERATOR, C_SEMICOLON, C_END,
    C_STRAY, C_OPEN_STRING, C_BROKEN_STRING, C_MISSHAPEN /* no token, by why it is none */
};

/* The class of the next token; *start is its first byte, *cursor the place after it. */
static enum class next_token(const uint8_t **cursor, const uint8_t *limit, const uint8_t **start) {
    const uint8_t *YYCURSOR = *cursor, *YYLIMIT = limit, *YYMARKER;
    const uint8_t *token;
#define GIVE(c) do { *start = token; *cursor = YYCURSOR; return (c); } while (0)
    for (;;) {
        token = YYCURSOR;
        /*!re2c
            re2c:define:YYCTYPE = uint8_t;
            re2c:yyfill:enable = 0;
            re2c:eof = 0;

            word = [A-Za-z][A-Za-z0-9_]*;
            digit = [0-9];
            run = "-"? digit [A-Za-z0-9_.:]*;

            [ \t\r\n]+ { continue; }
            "//" [^\r\n]* { continue; }
            $ { GIVE(C_END); }
            "JOB" { GIVE(C_JOB); }
            "RESPONSE" { GIVE(C_RESPONSE); }
            "UPLOAD" { GIVE(C_UPLOAD); }
            "DOWNLOAD" { GIVE(C_DOWNLOAD); }
            "GETINFO" { GIVE(C_GETINFO); }
            "ABORT" { GIVE(C_ABORT); }
            "REPORT" { GIVE(C_REPORT); }
            "EVENT" { GIVE(C_EVENT); }
            "START" { GIVE(C_START); }
            "ACTIVE" { GIVE(C_ACTIVE); }
            "IMMEDIATE" { GIVE(C_IMMEDIATE); }
            "STOP" | "TIME" | "NEVER" { GIVE(C_RESERVED); }
            "TIME>=" { GIVE(C_TIME_FROM); }
            word { GIVE(YYCURSOR - token <= 255 ? C_NAME : C_MISSHAPEN); }
            "-"? digit+ { GIVE(YYCURSOR - token - (*token == '-') <= 16 ? C_NUMBER : C_MISSHAPEN); }
            "-"? digit+ "." digit+ { GIVE(YYCURSOR - token - (*token == '-') <= 17 ? C_NUMBER : C_MISSHAPEN); }
            digit digit ":" digit digit ":" digit digit { GIVE(C_TIME); }
            run { GIVE(C_MISSHAPEN); }
            ["] [\x20\x21\x23-\xfe]* ["] { GIVE(YYCURSOR - token <= 257 ? C_STRING : C_BROKEN_STRING); }
            ["] [\x20\x21\x23-\xfe]* { GIVE(YYCURSOR == limit && YYCURSOR - token <= 256 ? C_OPEN_STRING : C_BROKEN_STRING); }
            "=" | "!=" | ">" | "<" | ">=" | "<=" { GIVE(C_OPERATOR); }
            ";" { GIVE(C_SEMICOLON); }
            * { GIVE(C_STRAY); }
        */
    }
}

enum point {
    P_FIRST, P_JOB_NAME, P_JOB_RESPONSE, P_JOB_FILE, P_BETWEEN, P_MOVE_FILE, P_MOVE_SOURCE, P_MOVE_START, P_START, P_START_TIME,
    P_START_DATE, P_START_OPERATOR, P_START_VALUE, P_INFO_FILE, P_ABORT, P_ABORT_NAME, P_END, P_COUNT
};

/* The point after a token of that class, plus one; 0 where none may stand. */
static const uint8_t after[P_COUNT][C_END + 1] = {
    [P_FIRST] = {[C_JOB] = 1 + P_JOB_NAME},
    [P_JOB_NAME] = {[C_NAME] = 1 + P_JOB_RESPONSE},
    [P_JOB_RESPONSE] = {[C_RESPONSE] = 1 + P_JOB_FILE},
    [P_JOB_FILE] = {[C_STRING] = 1 + P_END},
    [P_BETWEEN] = {[C_UPLOAD] = 1 + P_MOVE_FILE, [C_DOWNLOAD] = 1 + P_MOVE_FILE, [C_GETINFO] = 1 + P_INFO_FILE, [C_ABORT] = 1 + P_ABORT},
    [P_MOVE_FILE] = {[C_STRING] = 1 + P_MOVE_SOURCE},
    [P_MOVE_SOURCE] = {[C_ACTIVE] = 1 + P_MOVE_START, [C_STRING] = 1 + P_MOVE_START, [C_NAME] = 1 + P_MOVE_START},
    [P_MOVE_START] = {[C_START] = 1 + P_START, [C_SEMICOLON] = 1 + P_BETWEEN},
    [P_START] = {[C_IMMEDIATE] = 1 + P_END, [C_TIME_FROM] = 1 + P_START_TIME, [C_NAME] = 1 + P_START_OPERATOR},
    [P_START_TIME] = {[C_TIME] = 1 + P_START_DATE},
    [P_START_DATE] = {[C_NUMBER] = 1 + P_END, [C_SEMICOLON] = 1 + P_BETWEEN},
    [P_START_OPERATOR] = {[C_OPERATOR] = 1 + P_START_VALUE},
    [P_START_VALUE] = {[C_NUMBER] = 1 + P_END, [C_STRING] = 1 + P_END},
    [P_INFO_FILE] = {[C_STRING] = 1 + P_END},
    [P_ABORT] = {[C_REPORT] = 1 + P_ABORT_NAME, [C_EVENT] = 1 + P_ABORT_NAME},
    [P_ABORT_NAME] = {[C_NAME] = 1 + P_END},
    [P_END] = {[C_SEMICOLON] = 1 + P_BETWEEN},
};

static uint32_t digits_of(const uint8_t *p, int n) {
    uint32_t v = 0;
    for (int i = 0; i < n; i++) v = v * 10 + (p[i] - '0');
    return v;
}

/* The refusals of what is no token, by why it is none. */
static const uint8_t no_token_number[] = {3, 15, 16, 17};

/* 0, or the refusal of a time or date that may stand at the point. */
static uint32_t moment_refusal(enum point at, enum class c, const uint8_t *token, const uint8_t *end) {
    if (at == P_START_TIME && c == C_TIME)
        return plain_is_real_time(digits_of(token, 2) * 10000 + digits_of(token + 3, 2) * 100 + digits_of(token + 6, 2)) ? 0 : 5;
    if (at == P_START_DATE && c == C_NUMBER) {
        if (end - token != 8 || *token == '-') return 4;
        for (int i = 0; i < 8; i++)
            if (token[i] == '.') return 4;
        return plain_is_real_date(digits_of(token, 8)) ? 0 : 5;
    }
    return 0;
}

uint32_t plain_read_job(const uint8_t *file, size_t n, bool clause_optional, uint32_t *offsets, size_t places, size_t *statements) {
    uint32_t found[RB_MAX_STATEMENTS];
    size_t count = 0;
    enum point at = P_FIRST;
    if (n > 65535) return 1;
    const uint8_t *cursor = file, *limit = file + n, *token;
    for (;;) {
        enum class c = next_token(&cursor, limit, &token);
        uint32_t place = 256 * (uint32_t)(token - file);
        if (c > C_END) return place + no_token_number[c - C_STRAY];
        if (at == P_BETWEEN || at == P_FIRST) {
            if (c == C_END && at == P_BETWEEN) break;
            if (c != C_END && count == RB_MAX_STATEMENTS) return place + 6;
            if (count < RB_MAX_STATEMENTS) found[count] = (uint32_t)(token - file);
        }
        uint8_t next = after[at][c];
        if (at == P_MOVE_START && c == C_SEMICOLON && !clause_optional) next = 0;
        if (!next) return place + (c == C_END ? 18 : 4);
        uint32_t no = moment_refusal(at, c, token, cursor);
        if (no) return place + no;
        at = (enum point)(next - 1);
        if (at == P_BETWEEN) count++;
    }
    if (count > places) return 2;
    for (size_t i = 0; i < count; i++) offsets[i] = found[i];
    *statements = count;
    return 0;
}
