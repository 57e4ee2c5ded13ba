/*
 * The listing of a sheet in plain C, by docs/LISTING.md: the lister and the
 * reader. See model.h.
 */
#include "model.h"

#include <string.h>

const char *const model_mnemonics[MODEL_OPCODES] = {
    "ZERO-EXTA", "ZERO-EXTB", "SIGN-EXTA", "SIGN-EXTB",
    "PASS-STAT", "PASS-Q", "LOADQ-A", "LOADQ-B",
    "NOT-A", "NOT-B", "NEG-A", "NEG-B",
    "PRIOR-A", "PRIOR-B", "MERGEA-B", "MERGEB-A",
    "DECR-A", "DECR-B", "INCR-A", "INCR-B",
    "DECR2-A", "DECR2-B", "INCR2-A", "INCR2-B",
    "DECR4-A", "DECR4-B", "INCR4-A", "INCR4-B",
    "LDSTAT-A", "LDSTAT-B", "", "",
    "DN1-0F-A", "DN1-0F-B", "DN1-0F-AQ", "DN1-0F-BQ",
    "DN1-1F-A", "DN1-1F-B", "DN1-1F-AQ", "DN1-1F-BQ",
    "DN1-LF-A", "DN1-LF-B", "DN1-LF-AQ", "DN1-LF-BQ",
    "DN1-AR-A", "DN1-AR-B", "DN1-AR-AQ", "DN1-AR-BQ",
    "UP1-0F-A", "UP1-0F-B", "UP1-0F-AQ", "UP1-0F-BQ",
    "UP1-1F-A", "UP1-1F-B", "UP1-1F-AQ", "UP1-1F-BQ",
    "UP1-LF-A", "UP1-LF-B", "UP1-LF-AQ", "UP1-LF-BQ",
    "ZERO", "SIGN", "OR", "XOR",
    "AND", "XNOR", "ADD", "ADDC",
    "SUB", "SUBC", "SUBR", "SUBRC",
    "SUM-CORR-A", "SUM-CORR-B", "DIFF-CORR-A", "DIFF-CORR-B",
    "", "", "SDIVFIRST", "UDIVFIRST",
    "SDIVSTEP", "SDIVLAST1", "MPDIVSTEP1", "MPSDIVSTEP3",
    "UDIVSTEP", "UDIVLAST", "MPDIVSTEP2", "MPUDIVSTP3",
    "REMCORR", "QUOCORR", "SDIVLAST2", "UMULFIRST",
    "UMULSTEP", "UMULLAST", "SMULSTEP", "SMULFIRST",
    "NB-SN-SHA", "NB-SN-SHB", "NB-0F-SHA", "NB-0F-SHB",
    "NBROT-A", "NBROT-B", "EXTBIT-A", "EXTBIT-B",
    "SETBIT-A", "SETBIT-B", "RSTBIT-A", "RSTBIT-B",
    "SETBIT-STAT", "RSTBIT-STAT", "NOTF-AL-B", "PASSF-AL-B",
    "NOTF-A", "NOTF-AL-A", "PASSF-A", "PASSF-AL-A",
    "ORF-A", "ORF-AL-A", "XORF-A", "XORF-AL-A",
    "ANDF-A", "ANDF-AL-A", "EXTF-A", "EXTF-B",
    "EXTF-AB", "EXTF-BA", "EXTBIT-STAT", "PASS-MASK"};

static struct model_verdict verdict(uint32_t reason, uint64_t place)
{
    struct model_verdict v = {.reason = reason, .place = place};
    return v;
}

/* ---- From a sheet to its listing ---------------------------------------- */

/* Each of these puts something at a place of a text and gives the place after
 * it; where the text is NULL it only counts. */
static size_t put(uint8_t *text, size_t at, const char *part)
{
    size_t length = strlen(part);
    if (text != NULL)
        memcpy(text + at, part, length);
    return at + length;
}

static size_t put_number(uint8_t *text, size_t at, const char *name,
                         size_t digits, unsigned number)
{
    const char number_text[] = {(char)('0' + number / 10),
                                (char)('0' + number % 10), '\0'};
    return put(text, put(text, at, name), number_text + (2 - digits));
}

static size_t put_mnemonic(uint8_t *text, size_t at, unsigned opcode)
{
    static const char blanks[] = "            ";
    const char *mnemonic = model_mnemonics[opcode];
    return put(text, put(text, at, mnemonic), blanks + strlen(mnemonic));
}

static size_t put_word(uint8_t *text, size_t at, const struct model_word *w)
{
    at = put_mnemonic(text, at, w->opcode);
    at = put_number(text, at, "code=", 1, w->byte_code);
    at = put_number(text, at, " position=", 2, w->position);
    at = put_number(text, at, " width=", 2, w->width);
    at = put_number(text, at, " A=", 2, w->a);
    at = put_number(text, at, " B=", 2, w->b);
    at = put_number(text, at, " Y=", 2, w->y);
    at = put(text, at, w->write ? " write" : "");
    at = put(text, at, w->macro_select ? " macro-select" : "");
    at = put(text, at, w->macro_carry ? " macro-carry" : "");
    at = put(text, at, w->macro_link ? " macro-link" : "");
    at = put(text, at, w->borrow ? " borrow" : "");
    return put(text, at, "\n");
}

/* The listing of a sheet that was checked. */
static size_t put_listing(uint8_t *text, const uint8_t *sheet, size_t length)
{
    size_t at = put_number(text, 0, "version=", 1, sheet[0] >> 4);
    at = put_number(text, at, " registers=", 2, sheet[2] >> 1);
    at = put(text, at, "\n");
    for (size_t i = MODEL_HEADER_BYTES; i < length; i += MODEL_WORD_BYTES) {
        struct model_word word;
        model_unpack(sheet + i, MODEL_WORD_BYTES, &word);
        at = put_word(text, at, &word);
    }
    return at;
}

struct model_verdict model_list(const uint8_t *sheet, size_t length,
                                uint8_t *text, size_t room, size_t *bytes)
{
    struct model_verdict v = model_check(sheet, length);
    *bytes = 0;
    if (v.reason != MODEL_DONE)
        return v;
    if (room < put_listing(NULL, sheet, length))
        return verdict(MODEL_ROOM, 0);
    *bytes = put_listing(text, sheet, length);
    return v;
}

/* ---- From a text to its sheet ------------------------------------------- */

/* What is left of a line, and a part of it: bytes that are not blank. */
struct span {
    const uint8_t *at, *end;
};

static int is_blank(uint8_t c)
{
    return c == ' ' || c == '\t' || c == '\r';
}

/* The next part of a line, empty at its end. */
static struct span next_part(struct span *line)
{
    while (line->at < line->end && is_blank(*line->at))
        line->at++;
    struct span part = *line;
    while (line->at < line->end && !is_blank(*line->at))
        line->at++;
    part.end = line->at;
    return part;
}

static int capital(int c)
{
    return c >= 'a' && c <= 'z' ? c - 'a' + 'A' : c;
}

/* Whether a part begins with a name, in letters of either case; then the part
 * goes on after it. */
static int take(struct span *part, const char *name)
{
    const uint8_t *at = part->at;
    for (; *name != '\0'; name++, at++)
        if (at == part->end || capital(*at) != capital(*name))
            return 0;
    part->at = at;
    return 1;
}

static int is(struct span part, const char *name)
{
    return take(&part, name) && part.at == part.end;
}

/* The next part of a line, if it is a name and one or two digits. */
static int read_number(struct span *line, const char *name, uint8_t *number)
{
    struct span part = next_part(line);
    if (!take(&part, name) || part.at == part.end || part.end - part.at > 2)
        return 0;
    for (*number = 0; part.at < part.end; part.at++) {
        if (*part.at < '0' || *part.at > '9')
            return 0;
        *number = (uint8_t)(*number * 10 + (*part.at - '0'));
    }
    return 1;
}

static int read_mnemonic(struct span part, uint8_t *opcode)
{
    for (*opcode = 0; *opcode < MODEL_OPCODES; ++*opcode)
        if (part.at < part.end && is(part, model_mnemonics[*opcode]))
            return 1;
    return 0;
}

/* Whether the part is the name of a switch; then the next one is taken. */
static uint8_t read_switch(struct span *line, struct span *part,
                           const char *name)
{
    if (!is(*part, name))
        return 0;
    *part = next_part(line);
    return 1;
}

static int read_word(struct span line, struct model_word *w)
{
    if (!read_mnemonic(next_part(&line), &w->opcode) ||
        !read_number(&line, "code=", &w->byte_code) ||
        !read_number(&line, "position=", &w->position) ||
        !read_number(&line, "width=", &w->width) ||
        !read_number(&line, "A=", &w->a) || !read_number(&line, "B=", &w->b) ||
        !read_number(&line, "Y=", &w->y))
        return 0;
    struct span part = next_part(&line);
    w->write = read_switch(&line, &part, "write");
    w->macro_select = read_switch(&line, &part, "macro-select");
    w->macro_carry = read_switch(&line, &part, "macro-carry");
    w->macro_link = read_switch(&line, &part, "macro-link");
    w->borrow = read_switch(&line, &part, "borrow");
    return part.at == part.end;
}

/* 15 Text, 4 Version, 5 Header of the first line. */
static uint32_t read_first(struct span line, uint8_t *registers)
{
    uint8_t version;
    struct span after;
    if (!read_number(&line, "version=", &version) ||
        !read_number(&line, "registers=", registers))
        return MODEL_TEXT;
    after = next_part(&line);
    if (after.at < after.end)
        return MODEL_TEXT;
    if (version != 1)
        return MODEL_VERSION;
    return *registers == 0 || *registers > MODEL_MOST_REGISTERS ? MODEL_HEADER
                                                                : MODEL_DONE;
}

/* 15 Text, 2 Inputs, 17 Idle, 9 Register of a word's line, or its six bytes. */
static uint32_t read_line(struct span line, uint8_t registers,
                          uint8_t bytes[MODEL_WORD_BYTES])
{
    struct model_word w;
    if (!read_word(line, &w))
        return MODEL_TEXT;
    uint32_t reason = model_pack(&w, bytes, MODEL_WORD_BYTES).reason;
    if (reason != MODEL_DONE)
        return reason;
    return w.a >= registers || w.b >= registers || w.y >= registers
               ? MODEL_REGISTER
               : MODEL_DONE;
}

/* The next line of a text, without its line feed. */
static struct span next_line(struct span *text)
{
    struct span line = *text;
    size_t left = (size_t)(text->end - text->at);
    const uint8_t *feed = left == 0 ? NULL : memchr(text->at, '\n', left);
    line.end = feed == NULL ? text->end : feed;
    text->at = feed == NULL ? text->end : feed + 1;
    return line;
}

/* The lines of the words: the first fault, or the words' number as the place.
 * Where there is a sheet their bytes go to it. */
static struct model_verdict read_words(struct span text, uint8_t registers,
                                       uint8_t *sheet)
{
    uint64_t count = 0;
    while (text.at < text.end) {
        uint8_t bytes[MODEL_WORD_BYTES];
        uint32_t reason = read_line(next_line(&text), registers, bytes);
        if (reason != MODEL_DONE)
            return verdict(reason, count + 1);
        if (sheet != NULL)
            memcpy(sheet + MODEL_HEADER_BYTES + MODEL_WORD_BYTES * count, bytes,
                   sizeof bytes);
        count++;
    }
    return verdict(MODEL_DONE, count);
}

struct model_verdict model_read(const uint8_t *text, size_t length,
                                uint8_t *sheet, size_t room, size_t *bytes)
{
    struct span rest = {text, text + length};
    uint8_t registers;
    uint32_t reason = read_first(next_line(&rest), &registers);
    *bytes = 0;
    if (reason != MODEL_DONE)
        return verdict(reason, 0);
    struct model_verdict v = read_words(rest, registers, NULL);
    if (v.reason != MODEL_DONE)
        return v;
    if (v.place > MODEL_MOST_WORDS)
        return verdict(MODEL_COUNT, 0);
    if (room < MODEL_HEADER_BYTES + MODEL_WORD_BYTES * v.place)
        return verdict(MODEL_ROOM, 0);
    *bytes = (size_t)(MODEL_HEADER_BYTES + MODEL_WORD_BYTES * v.place);
    sheet[0] = (uint8_t)(0x10 | v.place >> 8);
    sheet[1] = (uint8_t)v.place;
    sheet[2] = (uint8_t)(registers << 1);
    sheet[3] = 0;
    read_words(rest, registers, sheet);
    return verdict(MODEL_DONE, 0);
}
