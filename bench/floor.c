/*
 * What asn1x is measured against: a converter from BER to DER for some types, each written by hand for its type
 * alone. It makes its own inputs, and measures programs.
 *
 *     floor make WORK              writes about 16 MB of values under BER; certificates are those on its standard
 *                                  input, in DER as hexadecimal text, over and over
 *     floor convert WORK FILE      writes the values of the file under DER
 *     floor module WORK            writes the module that has the type, whose name is Value; certificates have
 *                                  examples/certificates.asn, and the type Certificate
 *     floor measure RUNS WORD.. [-- WORD..]..
 *                                  runs each command of these words so many times, in turn, its standard output
 *                                  unread, and prints a line for each: the least of its processor time in
 *                                  microseconds, and the most memory that was resident, in KiB
 *
 * It reads and writes by buffers. It takes the definite and the indefinite form, lengths in
 * more octets than needed, and at most 1,048,576 octets a value, checks all that BER asks of these types, and
 * ends with status 1 at the first octet that is wrong. An INTEGER has at most 16 contents octets, and of a
 * certificate 1,024.
 */
#include <fcntl.h>
#include <stdint.h>
#include <stdio.h>
#include <stdlib.h>
#include <string.h>
#include <sys/resource.h>
#include <sys/time.h>
#include <sys/wait.h>
#include <unistd.h>

typedef uint8_t octet;

/* What records and certificates both use is to cost neither a call. */
#define INLINE static inline __attribute__((always_inline))

#define MOST 1048576
#define INDEFINITE SIZE_MAX
#define INPUT 16000000
#define LEVELS 60
#define ITEMS 1000
#define NARROW 16
#define WIDE 1024
#define NUMBERS 256
#define DEPTH 8

static void die(const char *why)
{
    fprintf(stderr, "floor: %s\n", why);
    exit(1);
}

/* Output. */

static octet sent[1 << 16];
static size_t held;

static void flush(void)
{
    size_t at = 0;
    while (at < held) {
        ssize_t count = write(1, sent + at, held - at);
        if (count <= 0)
            die("cannot write");
        at += (size_t)count;
    }
    held = 0;
}

static void send(const octet *octets, size_t count)
{
    while (count > sizeof sent - held) {
        size_t some = sizeof sent - held;
        memcpy(sent + held, octets, some);
        held += some;
        octets += some;
        count -= some;
        flush();
    }
    memcpy(sent + held, octets, count);
    held += count;
}

/* Input. The window has the whole of the value that is converted. */

static octet window[4 * MOST];
static const octet *at = window, *file_end = window;
static int input, all_read;

static void open_input(const char *path)
{
    input = open(path, O_RDONLY);
    if (input < 0)
        die("cannot open the input");
}

/* Whether a value stands next. */
static int has_value(void)
{
    size_t left = (size_t)(file_end - at);
    if (left < MOST && !all_read) {
        memmove(window, at, left);
        at = window;
        while (left < sizeof window && !all_read) {
            size_t room = sizeof window - left;
            ssize_t count = read(input, window + left, room < 65536 ? room : 65536);
            if (count < 0)
                die("cannot read the input");
            all_read = count == 0;
            left += (size_t)count;
        }
        file_end = window + left;
    }
    return at < file_end;
}

/* Takes the identifier octet. */
static inline void take_tag(octet tag, const octet *end)
{
    if (at == end || *at != tag)
        die("another identifier");
    at++;
}

/* The length octets: how many contents octets follow up to `end`, or INDEFINITE. */
static inline size_t take_length(const octet *end)
{
    if (at == end)
        die("truncated");
    size_t length = *at++;
    if (length == 0x80)
        return INDEFINITE;
    if (length > 0x80) {
        size_t count = length - 0x80;
        if (count == 0x7f || count > (size_t)(end - at))
            die("bad length");
        for (length = 0; count > 0; count--) {
            length = length << 8 | *at++;
            if (length > MOST)
                die("too long");
        }
    }
    if (length > (size_t)(end - at))
        die("bad length");
    return length;
}

static inline size_t take_definite(const octet *end)
{
    size_t length = take_length(end);
    if (length == INDEFINITE)
        die("a primitive encoding of the indefinite form");
    return length;
}

/* The end of a constructed encoding's contents octets, or of what holds it. */
static inline const octet *take_opening(size_t *length, const octet *end)
{
    *length = take_length(end);
    return *length == INDEFINITE ? end : at + *length;
}

/* Whether the contents octets end here; takes the end-of-contents octets. */
static inline int ends(size_t length, const octet *end)
{
    if (length != INDEFINITE)
        return at == end;
    if (end - at < 2)
        die("truncated");
    if (at[0] != 0)
        return 0;
    if (at[1] != 0)
        die("bad end of contents");
    at += 2;
    return 1;
}

static void must_end(size_t length, const octet *end)
{
    if (!ends(length, end))
        die("more than is allowed");
}

/* What is being written of a value: contents octets with room for what stands before them. */

static octet value[MOST + 64];
static octet *put;

static inline void begin(void)
{
    put = value + 16;
}

static inline void put_octets(const octet *octets, size_t count)
{
    if (count > (size_t)(value + sizeof value - put))
        die("too long");
    memcpy(put, octets, count);
    put += count;
}

static inline size_t size_of_length(size_t length)
{
    return length < 0x80 ? 1 : length < 0x100 ? 2 : length < 0x10000 ? 3 : 4;
}

static inline void put_length(octet *to, size_t length, size_t size)
{
    if (size == 1) {
        to[0] = (octet)length;
        return;
    }
    to[0] = (octet)(0x7f + size);
    for (size_t i = size; --i > 0; length >>= 8)
        to[i] = (octet)length;
}

static inline void put_head(octet tag, size_t length)
{
    size_t size = size_of_length(length);
    if (size + 1 > (size_t)(value + sizeof value - put))
        die("too long");
    put[0] = tag;
    put_length(put + 1, length, size);
    put += 1 + size;
}

/* Sends what began with `begin`, with its head before it. */
static void send_value(octet tag)
{
    size_t length = (size_t)(put - (value + 16)), size = size_of_length(length);
    octet *head = value + 16 - size - 1;
    if (length + size + 1 > MOST)
        die("too long");
    head[0] = tag;
    put_length(head + 1, length, size);
    send(head, 1 + size + length);
}

/* Parts without parts. Each takes its identifier octets too. */

static inline void boolean(octet tag, const octet *end)
{
    take_tag(tag, end);
    if (take_definite(end) != 1)
        die("bad BOOLEAN");
    octet truth = *at++ ? 0xff : 0;
    put_head(tag, 1);
    put_octets(&truth, 1);
}

/* The length of an INTEGER of at most so many contents octets. */
static inline size_t integer_length(size_t most, const octet *end)
{
    size_t length = take_definite(end);
    if (length == 0 || length > most)
        die("bad INTEGER");
    if (length > 1 && ((at[0] == 0 && at[1] < 0x80) || (at[0] == 0xff && at[1] >= 0x80)))
        die("bad INTEGER");
    return length;
}

INLINE void integer(octet tag, size_t most, const octet *end)
{
    take_tag(tag, end);
    size_t length = integer_length(most, end);
    put_head(tag, length);
    put_octets(at, length);
    at += length;
}

static inline void enumerated(const octet *end)
{
    take_tag(0x0a, end);
    if (take_definite(end) != 1 || *at > 2)
        die("bad ENUMERATED");
    put_head(0x0a, 1);
    put_octets(at++, 1);
}

static inline void null(octet tag, const octet *end)
{
    take_tag(tag, end);
    if (take_definite(end) != 0)
        die("bad NULL");
    put_head(tag, 0);
}

INLINE void object_identifier(const octet *end)
{
    take_tag(0x06, end);
    size_t length = take_definite(end);
    if (length == 0 || at[length - 1] >= 0x80)
        die("bad OBJECT IDENTIFIER");
    size_t digits = 0;
    for (size_t i = 0; i < length; i++) {
        if (digits == 0 && at[i] == 0x80)
            die("bad OBJECT IDENTIFIER");
        digits = at[i] < 0x80 ? 0 : digits + 1;
        if (digits > 17)
            die("bad OBJECT IDENTIFIER");
    }
    put_head(0x06, length);
    put_octets(at, length);
    at += length;
}

INLINE void bit_string(octet tag, const octet *end)
{
    take_tag(tag, end);
    size_t length = take_definite(end);
    if (length == 0 || at[0] > 7 || (length == 1 && at[0] != 0))
        die("bad BIT STRING");
    put_head(tag, length);
    put_octets(at, length);
    put[-1] &= (octet)(0xff << at[0]);
    at += length;
}

enum { OF_OCTETS, OF_UTF8, OF_PRINTABLE, OF_ASCII, OF_VISIBLE, OF_PAIRS };
static octet alphabets[256];

static void make_alphabets(void)
{
    for (int c = 0; c < 256; c++) {
        int is_letter = (c >= 'A' && c <= 'Z') || (c >= 'a' && c <= 'z');
        int is_printable = is_letter || (c >= '0' && c <= '9') || (c && strchr(" '()+,-./:=?", c));
        alphabets[c] = (octet)((is_printable ? 1 << OF_PRINTABLE : 0) | (c < 128 ? 1 << OF_ASCII : 0)
            | (c >= 32 && c < 127 ? 1 << OF_VISIBLE : 0) | 1 << OF_OCTETS);
    }
}

static void check_utf8(const octet *s, size_t length)
{
    const octet *end = s + length;
    while (s < end) {
        octet c = *s++;
        if (c < 0x80)
            continue;
        size_t more = c >= 0xf0 ? 3 : c >= 0xe0 ? 2 : 1;
        if (c < 0xc2 || c > 0xf4 || more > (size_t)(end - s))
            die("bad UTF-8");
        octet low = c == 0xe0 ? 0xa0 : c == 0xf0 ? 0x90 : 0x80, high = c == 0xed ? 0x9f : c == 0xf4 ? 0x8f : 0xbf;
        if (s[0] < low || s[0] > high)
            die("bad UTF-8");
        for (size_t i = 1; i < more; i++)
            if (s[i] >> 6 != 2)
                die("bad UTF-8");
        s += more;
    }
}

static void check_pairs(const octet *s, size_t length)
{
    if (length % 2 != 0)
        die("half a character");
    for (size_t i = 0; i < length; i += 2)
        if (s[i] >> 3 == 0x1b)
            die("a surrogate");
}

static inline void string(octet tag, int kind, const octet *end)
{
    take_tag(tag, end);
    size_t length = take_definite(end);
    if (kind == OF_UTF8) {
        check_utf8(at, length);
    } else if (kind == OF_PAIRS) {
        check_pairs(at, length);
    } else if (kind != OF_OCTETS) {
        for (size_t i = 0; i < length; i++)
            if (!(alphabets[at[i]] >> kind & 1))
                die("a character that the type does not have");
    }
    put_head(tag, length);
    put_octets(at, length);
    at += length;
}

static inline unsigned two(const octet *digits)
{
    return (unsigned)(digits[0] - '0') * 10 + (unsigned)(digits[1] - '0');
}

/* Takes a time of so many octets, whose year has the first of them: 2 or 4. */
INLINE void time_of(octet tag, size_t most, size_t of_year, const octet *end)
{
    static const octet days[] = {31, 28, 31, 30, 31, 30, 31, 31, 30, 31, 30, 31};
    take_tag(tag, end);
    size_t length = take_definite(end);
    if (length != most || at[most - 1] != 'Z')
        die("bad time");
    for (size_t i = 0; i < most - 1; i++)
        if (at[i] < '0' || at[i] > '9')
            die("bad time");
    const octet *rest = at + of_year;
    unsigned year = of_year == 2 ? two(at) : two(at) * 100 + two(at + 2), month = two(rest), day = two(rest + 2);
    if (month < 1 || month > 12 || day < 1 || two(rest + 4) > 23 || two(rest + 6) > 59 || two(rest + 8) > 59)
        die("bad time");
    unsigned leap = month == 2 && year % 4 == 0 && (of_year == 2 || year % 100 != 0 || year % 400 == 0);
    if (day > days[month - 1] + leap)
        die("bad time");
    put_head(tag, length);
    put_octets(at, length);
    at += length;
}

static inline void utc_time(const octet *end)
{
    time_of(0x17, 13, 2, end);
}

static inline void generalized_time(const octet *end)
{
    time_of(0x18, 15, 4, end);
}

/* Parts with parts: what is read of one up to `end`, and where its contents octets are written, with room for so
 * many length octets before them. */

struct part {
    size_t length;
    const octet *end;
    octet *contents;
    size_t room;
};

/* Begins a part. The room is what the length of the definite form needs, or `usual`. */
INLINE struct part open_part(octet tag, size_t usual, const octet *end)
{
    struct part part;
    take_tag(tag, end);
    part.end = take_opening(&part.length, end);
    part.room = part.length == INDEFINITE ? usual : size_of_length(part.length);
    if (part.room + 1 > (size_t)(value + sizeof value - put))
        die("too long");
    *put = tag;
    put += 1 + part.room;
    part.contents = put;
    return part;
}

/* Writes the length octets of a part whose end has been read. */
static inline void close_part(const struct part *part)
{
    size_t count = (size_t)(put - part->contents), size = size_of_length(count);
    octet *length = part->contents - part->room;
    if (size != part->room) {
        if (size > (size_t)(value + sizeof value - put))
            die("too long");
        memmove(length + size, part->contents, count);
        put = length + size + count;
    }
    put_length(length, count, size);
}

static inline void end_part(const struct part *part)
{
    must_end(part->length, part->end);
    close_part(part);
}

/* Whether a part with this identifier octet stands next. */
static inline int is_next(octet tag, const octet *end)
{
    return at < end && *at == tag;
}

/* The contents octets of an OCTET STRING in segments. */

static void segments(int nested, size_t length, const octet *end)
{
    if (nested == 64)
        die("too many open encodings");
    while (!ends(length, end)) {
        if (is_next(0x24, end)) {
            size_t inside;
            at++;
            const octet *last = take_opening(&inside, end);
            segments(nested + 1, inside, last);
        } else {
            take_tag(0x04, end);
            size_t count = take_definite(end);
            put_octets(at, count);
            at += count;
        }
    }
}

/* An OCTET STRING, also in segments. */
static inline void segmented(const octet *end)
{
    if (!is_next(0x24, end)) {
        string(0x04, OF_OCTETS, end);
        return;
    }
    struct part part = open_part(0x24, 1, end);
    *(part.contents - part.room - 1) = 0x04;
    segments(1, part.length, part.end);
    close_part(&part);
}

/* Records. */

static const char records_module[] =
    "Records DEFINITIONS IMPLICIT TAGS ::= BEGIN\n"
    "  Value ::= SEQUENCE {\n"
    "    number INTEGER,\n"
    "    active BOOLEAN,\n"
    "    kind ENUMERATED { local (0), mobile (1), relay (2) },\n"
    "    name UTF8String,\n"
    "    label PrintableString,\n"
    "    started GeneralizedTime,\n"
    "    service OBJECT IDENTIFIER,\n"
    "    key OCTET STRING,\n"
    "    flags BIT STRING,\n"
    "    called CHOICE { digits [0] IA5String, code [1] INTEGER, none [2] NULL },\n"
    "    marks SEQUENCE OF INTEGER,\n"
    "    note [3] VisibleString OPTIONAL,\n"
    "    level [4] INTEGER DEFAULT 0\n"
    "  }\n"
    "END\n";

static void called(const octet *end)
{
    if (at == end)
        die("truncated");
    switch (*at) {
    case 0x80:
        string(0x80, OF_ASCII, end);
        break;
    case 0x81:
        integer(0x81, NARROW, end);
        break;
    default:
        null(0x82, end);
    }
}

static void marks(const octet *end)
{
    struct part part = open_part(0x30, 1, end);
    while (!ends(part.length, part.end))
        integer(0x02, NARROW, part.end);
    close_part(&part);
}

static void record(void)
{
    size_t length;
    begin();
    take_tag(0x30, file_end);
    const octet *end = take_opening(&length, file_end);
    integer(0x02, NARROW, end);
    boolean(0x01, end);
    enumerated(end);
    string(0x0c, OF_UTF8, end);
    string(0x13, OF_PRINTABLE, end);
    generalized_time(end);
    object_identifier(end);
    segmented(end);
    bit_string(0x03, end);
    called(end);
    marks(end);
    if (is_next(0x83, end))
        string(0x83, OF_VISIBLE, end);
    if (is_next(0x84, end)) {
        octet *before = put;
        integer(0x84, NARROW, end);
        if (put - before == 3 && before[2] == 0)
            put = before;
    }
    must_end(length, end);
    send_value(0x30);
}

/* Strings in segments. */

static void octet_string(void)
{
    begin();
    if (is_next(0x24, file_end)) {
        size_t length;
        at++;
        const octet *end = take_opening(&length, file_end);
        segments(1, length, end);
    } else {
        take_tag(0x04, file_end);
        size_t count = take_definite(file_end);
        put_octets(at, count);
        at += count;
    }
    send_value(0x04);
}

/* SET OF INTEGER. An item is ordered by its length and contents octets. */

struct item {
    uint64_t front;
    const octet *contents;
    size_t length;
};

static struct item *items, *others;
static size_t room;

static inline int is_behind(const struct item *a, const struct item *b)
{
    if (a->front != b->front)
        return a->front > b->front;
    return a->length > 7 && memcmp(a->contents + 7, b->contents + 7, a->length - 7) > 0;
}

static void sort_items(struct item *xs, struct item *spare, size_t count)
{
    if (count <= 16) {
        for (size_t i = 1; i < count; i++) {
            struct item x = xs[i];
            size_t j = i;
            for (; j > 0 && is_behind(&xs[j - 1], &x); j--)
                xs[j] = xs[j - 1];
            xs[j] = x;
        }
        return;
    }
    size_t half = count / 2, i = 0, j = half, k = 0;
    sort_items(xs, spare, half);
    sort_items(xs + half, spare, count - half);
    memcpy(spare, xs, half * sizeof *xs);
    while (i < half && j < count)
        xs[k++] = is_behind(&spare[i], &xs[j]) ? xs[j++] : spare[i++];
    memcpy(xs + k, spare + i, (half - i) * sizeof *xs);
}

static const char sets_module[] = "Sets DEFINITIONS ::= BEGIN Value ::= SET OF INTEGER END\n";

static void set_of_integer(void)
{
    size_t length, count = 0;
    begin();
    take_tag(0x31, file_end);
    const octet *end = take_opening(&length, file_end);
    while (!ends(length, end)) {
        if (count == room) {
            room = room ? 2 * room : 1024;
            items = realloc(items, room * sizeof *items);
            others = realloc(others, room * sizeof *others);
            if (items == NULL || others == NULL)
                die("out of memory");
        }
        take_tag(0x02, end);
        struct item *item = &items[count++];
        item->length = integer_length(NARROW, end);
        item->contents = at;
        item->front = (uint64_t)item->length << 56;
        for (size_t i = 0; i < item->length && i < 7; i++)
            item->front |= (uint64_t)at[i] << (48 - 8 * i);
        at += item->length;
    }
    sort_items(items, others, count);
    for (size_t i = 0; i < count; i++) {
        put_head(0x02, items[i].length);
        put_octets(items[i].contents, items[i].length);
    }
    send_value(0x31);
}

/* An INTEGER within sixty explicit tags, [0] to [29] twice. */

static octet chain_tag(size_t level)
{
    return (octet)(0xa0 + level % 30);
}

static void chain(void)
{
    size_t lengths[LEVELS];
    const octet *last[LEVELS], *end = file_end;
    for (size_t level = 0; level < LEVELS; level++) {
        take_tag(chain_tag(level), end);
        end = last[level] = take_opening(&lengths[level], end);
    }
    take_tag(0x02, end);
    size_t length = integer_length(NARROW, end);
    const octet *contents = at;
    at += length;
    for (size_t level = LEVELS; level-- > 0;)
        must_end(lengths[level], last[level]);
    /* From the last octet to the first. */
    octet turned[LEVELS * 5 + 32], *to = turned + sizeof turned, *stop = to;
    to -= length;
    memcpy(to, contents, length);
    *--to = (octet)length;
    *--to = 0x02;
    for (size_t level = LEVELS; level-- > 0;) {
        size_t inside = (size_t)(stop - to), size = size_of_length(inside);
        to -= size;
        put_length(to, inside, size);
        *--to = chain_tag(level);
    }
    send(to, (size_t)(stop - to));
}

static void chain_module(void)
{
    printf("Chain DEFINITIONS EXPLICIT TAGS ::= BEGIN\n  Value ::=");
    for (int level = 0; level < LEVELS; level++)
        printf(" [%d]", level % 30);
    printf(" INTEGER\nEND\n");
}

/* A SEQUENCE OF INTEGER within all but the last of them: with itself as many levels as a type may have. */
static void chain_around_list(void)
{
    struct part parts[LEVELS - 1];
    size_t length;
    begin();
    take_tag(chain_tag(0), file_end);
    const octet *last = take_opening(&length, file_end), *end = last;
    for (size_t level = 1; level < LEVELS - 1; level++) {
        parts[level] = open_part(chain_tag(level), 4, end);
        end = parts[level].end;
    }
    struct part list = open_part(0x30, 4, end);
    while (!ends(list.length, list.end))
        integer(0x02, NARROW, list.end);
    close_part(&list);
    for (size_t level = LEVELS - 1; --level > 0;)
        end_part(&parts[level]);
    must_end(length, last);
    send_value(chain_tag(0));
}

static void chain_around_list_module(void)
{
    printf("Chain DEFINITIONS EXPLICIT TAGS ::= BEGIN\n  Value ::=");
    for (int level = 0; level < LEVELS - 1; level++)
        printf(" [%d]", level % 30);
    printf(" SEQUENCE OF INTEGER\nEND\n");
}

/* A SEQUENCE of two components under explicit tags, which are such SEQUENCEs again, so many deep; the innermost are of
 * INTEGER. */

static void pair(int depth, const octet *end)
{
    size_t usual = depth < 5 ? 3 : 1;
    for (octet tag = 0xa0; tag <= 0xa1; tag++) {
        struct part half = open_part(tag, usual, end);
        if (depth == DEPTH) {
            integer(0x02, NARROW, half.end);
        } else {
            struct part inner = open_part(0x30, usual, half.end);
            pair(depth + 1, inner.end);
            end_part(&inner);
        }
        end_part(&half);
    }
}

static void branches(void)
{
    size_t length;
    begin();
    take_tag(0x30, file_end);
    const octet *end = take_opening(&length, file_end);
    pair(1, end);
    must_end(length, end);
    send_value(0x30);
}

static void branches_module(void)
{
    printf("Branches DEFINITIONS EXPLICIT TAGS ::= BEGIN\n  Value ::= Pair1\n");
    for (int depth = 1; depth < DEPTH; depth++)
        printf("  Pair%d ::= SEQUENCE { left [0] Pair%d, right [1] Pair%d }\n", depth, depth + 1, depth + 1);
    printf("  Pair%d ::= SEQUENCE { left [0] INTEGER, right [1] INTEGER }\nEND\n", DEPTH);
}

/* A SEQUENCE OF CHOICE and a SET, of INTEGERs under the tags [0] to [255]. */

/* Takes identifier octets of such a tag. */
INLINE unsigned take_number(const octet *end)
{
    if (at == end || *at >> 5 != 4)
        die("another identifier");
    unsigned number = *at++ & 31;
    if (number < 31)
        return number;
    for (number = 0;; at++) {
        if (at == end)
            die("truncated");
        number = number << 7 | (*at & 127);
        if (number == 0 || number >= NUMBERS)
            die("another identifier");
        if (*at < 128)
            break;
    }
    at++;
    if (number < 31)
        die("another identifier");
    return number;
}

INLINE void put_numbered(unsigned number, const octet *contents, size_t length)
{
    if (number < 31) {
        put_head((octet)(0x80 | number), length);
    } else {
        octet head[3] = {0x9f, (octet)(number < 128 ? number : 0x80 | number >> 7), (octet)(number & 127)};
        size_t all_but_last = number < 128 ? 1 : 2;
        put_octets(head, all_but_last);
        put_head(head[all_but_last], length);
    }
    put_octets(contents, length);
}

static void list_of_choices(void)
{
    size_t length;
    begin();
    take_tag(0x30, file_end);
    const octet *end = take_opening(&length, file_end);
    while (!ends(length, end)) {
        unsigned number = take_number(end);
        size_t count = integer_length(NARROW, end);
        put_numbered(number, at, count);
        at += count;
    }
    send_value(0x30);
}

static void set_of_numbers(void)
{
    struct item members[NUMBERS] = {0};
    size_t length;
    begin();
    take_tag(0x31, file_end);
    const octet *end = take_opening(&length, file_end);
    while (!ends(length, end)) {
        struct item *member = &members[take_number(end)];
        if (member->contents != NULL)
            die("a component comes twice");
        member->length = integer_length(NARROW, end);
        member->contents = at;
        at += member->length;
    }
    for (unsigned number = 0; number < NUMBERS; number++) {
        if (members[number].contents == NULL)
            die("a component is missing");
        put_numbered(number, members[number].contents, members[number].length);
    }
    send_value(0x31);
}

/* Prints a module whose type has a part for each of some tags; the first parts have the tags of these places. */
static void numbered_module(const char *type, unsigned count, unsigned first, unsigned step)
{
    printf("Numbered DEFINITIONS IMPLICIT TAGS ::= BEGIN\n  Value ::= %s {", type);
    for (unsigned i = 0; i < count; i++)
        printf("%s\n    part%u [%u] INTEGER", i ? "," : "", i, first + i * step % NUMBERS);
    printf("\n  }\nEND\n");
}

static void choices_module(void)
{
    numbered_module("SEQUENCE OF CHOICE", NUMBERS, 0, 1);
}

static void disordered_choices_module(void)
{
    numbered_module("SEQUENCE OF CHOICE", NUMBERS, 0, 101);
}

static void choices_of_two_module(void)
{
    numbered_module("SEQUENCE OF CHOICE", 2, 200, 1);
}

static void members_module(void)
{
    numbered_module("SET", NUMBERS, 0, 1);
}

/* SEQUENCE OF NULL. */

static void sequence_of_null(void)
{
    size_t length;
    begin();
    take_tag(0x30, file_end);
    const octet *end = take_opening(&length, file_end);
    while (!ends(length, end))
        null(0x05, end);
    send_value(0x30);
}

/* Certificates. Those of the parts below that have parts are often of so many octets as `open_part` is told. */

/* An INTEGER under an explicit tag, left out where it is the default, a number of one octet. */
static void defaulted_integer(octet tag, octet otherwise, const octet *end)
{
    octet *before = put;
    struct part part = open_part(tag, 1, end);
    integer(0x02, WIDE, part.end);
    end_part(&part);
    if (put - before == 5 && before[4] == otherwise)
        put = before;
}

static void hash_algorithm(const octet *end)
{
    struct part part = open_part(0x30, 1, end);
    object_identifier(part.end);
    if (is_next(0x05, part.end))
        null(0x05, part.end);
    end_part(&part);
}

static void mask_algorithm(const octet *end)
{
    struct part part = open_part(0x30, 1, end);
    object_identifier(part.end);
    if (is_next(0x30, part.end))
        hash_algorithm(part.end);
    end_part(&part);
}

static void pss(const octet *end)
{
    struct part part = open_part(0x30, 1, end);
    if (is_next(0xa0, part.end)) {
        struct part tagged = open_part(0xa0, 1, part.end);
        hash_algorithm(tagged.end);
        end_part(&tagged);
    }
    if (is_next(0xa1, part.end)) {
        struct part tagged = open_part(0xa1, 1, part.end);
        mask_algorithm(tagged.end);
        end_part(&tagged);
    }
    if (is_next(0xa2, part.end))
        defaulted_integer(0xa2, 20, part.end);
    if (is_next(0xa3, part.end))
        defaulted_integer(0xa3, 1, part.end);
    end_part(&part);
}

static void algorithm(const octet *end)
{
    struct part part = open_part(0x30, 1, end);
    object_identifier(part.end);
    if (is_next(0x05, part.end))
        null(0x05, part.end);
    else if (is_next(0x06, part.end))
        object_identifier(part.end);
    else if (is_next(0x30, part.end))
        pss(part.end);
    end_part(&part);
}

static void attribute(const octet *end)
{
    struct part part = open_part(0x30, 1, end);
    object_identifier(part.end);
    if (is_next(0x13, part.end))
        string(0x13, OF_PRINTABLE, part.end);
    else if (is_next(0x0c, part.end))
        string(0x0c, OF_UTF8, part.end);
    else if (is_next(0x16, part.end))
        string(0x16, OF_ASCII, part.end);
    else
        string(0x1e, OF_PAIRS, part.end);
    end_part(&part);
}

/* The attributes of one SET OF, as they are written. */
struct span {
    const octet *octets;
    size_t length;
};

static struct span *spans;
static size_t room_of_spans;

static int by_octets(const void *a, const void *b)
{
    const struct span *x = a, *y = b;
    return memcmp(x->octets, y->octets, x->length < y->length ? x->length : y->length);
}

static void order_spans(octet *to, size_t count)
{
    static octet copy[MOST + 64];
    memcpy(copy, to, (size_t)(put - to));
    for (size_t i = 0; i < count; i++)
        spans[i].octets = copy + (spans[i].octets - to);
    qsort(spans, count, sizeof *spans, by_octets);
    for (size_t i = 0; i < count; to += spans[i++].length)
        memcpy(to, spans[i].octets, spans[i].length);
}

static void relative_name(const octet *end)
{
    size_t count = 0;
    struct part part = open_part(0x31, 1, end);
    while (!ends(part.length, part.end)) {
        if (count == room_of_spans) {
            room_of_spans = room_of_spans ? 2 * room_of_spans : 16;
            spans = realloc(spans, room_of_spans * sizeof *spans);
            if (spans == NULL)
                die("out of memory");
        }
        octet *start = put;
        attribute(part.end);
        spans[count++] = (struct span){start, (size_t)(put - start)};
    }
    if (count > 1)
        order_spans(part.contents, count);
    close_part(&part);
}

static void name(const octet *end)
{
    struct part part = open_part(0x30, 1, end);
    while (!ends(part.length, part.end))
        relative_name(part.end);
    close_part(&part);
}

static void moment(const octet *end)
{
    if (is_next(0x17, end))
        utc_time(end);
    else
        generalized_time(end);
}

static void validity(const octet *end)
{
    struct part part = open_part(0x30, 1, end);
    moment(part.end);
    moment(part.end);
    end_part(&part);
}

static void public_key(const octet *end)
{
    struct part part = open_part(0x30, 3, end);
    algorithm(part.end);
    bit_string(0x03, part.end);
    end_part(&part);
}

static void extension(const octet *end)
{
    struct part part = open_part(0x30, 1, end);
    object_identifier(part.end);
    if (is_next(0x01, part.end)) {
        octet *before = put;
        boolean(0x01, part.end);
        if (put[-1] == 0)
            put = before;
    }
    string(0x04, OF_OCTETS, part.end);
    end_part(&part);
}

static void extensions(const octet *end)
{
    struct part tagged = open_part(0xa3, 2, end), part = open_part(0x30, 2, tagged.end);
    while (!ends(part.length, part.end))
        extension(part.end);
    close_part(&part);
    end_part(&tagged);
}

static void to_be_signed(const octet *end)
{
    struct part part = open_part(0x30, 3, end);
    if (is_next(0xa0, part.end))
        defaulted_integer(0xa0, 0, part.end);
    integer(0x02, WIDE, part.end);
    algorithm(part.end);
    name(part.end);
    validity(part.end);
    name(part.end);
    public_key(part.end);
    if (is_next(0x81, part.end))
        bit_string(0x81, part.end);
    if (is_next(0x82, part.end))
        bit_string(0x82, part.end);
    if (is_next(0xa3, part.end))
        extensions(part.end);
    end_part(&part);
}

static void certificate(void)
{
    size_t length;
    begin();
    take_tag(0x30, file_end);
    const octet *end = take_opening(&length, file_end);
    to_be_signed(end);
    algorithm(end);
    bit_string(0x03, end);
    must_end(length, end);
    send_value(0x30);
}

/* BOOLEANs. */

static void one_boolean(void)
{
    take_tag(0x01, file_end);
    if (take_definite(file_end) != 1)
        die("bad BOOLEAN");
    octet encoding[3] = {0x01, 0x01, *at++ ? 0xff : 0};
    send(encoding, sizeof encoding);
}

/* Inputs. */

static uint64_t state = 0x9e3779b97f4a7c15;

static uint64_t any(void)
{
    state ^= state << 13;
    state ^= state >> 7;
    state ^= state << 17;
    return state;
}

static size_t made;

static void give(const void *octets, size_t count)
{
    send(octets, count);
    made += count;
}

#define GIVE(...) give((const octet[]){__VA_ARGS__}, sizeof((const octet[]){__VA_ARGS__}))

/* Whether lengths have more octets than needed, and strings segments. */
static int loose;

static void give_head(octet tag, size_t length)
{
    if (loose)
        GIVE(tag, 0x82, 0, (octet)length);
    else
        GIVE(tag, (octet)length);
}

/* An INTEGER under a tag, of about so many bits. */
static void give_integer(octet tag, int bits)
{
    int64_t number = (int64_t)any() >> (64 - bits);
    octet contents[8];
    size_t length = 8;
    for (int i = 0; i < 8; i++)
        contents[i] = (octet)(number >> (56 - 8 * i));
    const octet *front = contents;
    while (length > 1 && ((front[0] == 0 && front[1] < 0x80) || (front[0] == 0xff && front[1] >= 0x80))) {
        front++;
        length--;
    }
    give_head(tag, length);
    give(front, length);
}

static void give_text(octet tag, const char *letters, size_t length)
{
    size_t count = strlen(letters);
    if (any() % 4 == 0)
        GIVE(tag, 0x81, (octet)length);
    else
        give_head(tag, length);
    while (length-- > 0)
        GIVE((octet)letters[any() % count]);
}

static void give_record(void)
{
    static const char letters[] = "abcdefghijklmnopqrstuvwxyz ABCDEFGHIJKLMNOPQRSTUVWXYZ0123456789";
    char time[32];
    GIVE(0x30, 0x80);
    give_integer(0x02, 24);
    GIVE(0x01, 0x01, (octet)any());
    GIVE(0x0a, 0x01, (octet)(any() % 3));
    give_text(0x0c, letters, 6 + any() % 6);
    give_text(0x13, letters, any() % 6);
    sprintf(time, "\x18\x0f""2026%02u%02u%02u%02u%02uZ", (unsigned)(1 + any() % 12), (unsigned)(1 + any() % 28),
        (unsigned)(any() % 24), (unsigned)(any() % 60), (unsigned)(any() % 60));
    give(time, 17);
    GIVE(0x06, 0x04, 0x2a, 0x03, (octet)(0x81 + any() % 8), (octet)(any() % 128));
    if (loose)
        GIVE(0x24, 0x80, 0x04, 0x02, (octet)any(), (octet)any(), 0x04, 0x81, 0x02, (octet)any(), (octet)any(), 0x00, 0x00);
    else
        give_text(0x04, letters, 4);
    GIVE(0x03, 0x02, 0x04, (octet)any());
    switch (any() % 3) {
    case 0:
        give_text(0x80, "0123456789", 7);
        break;
    case 1:
        give_integer(0x81, 16);
        break;
    default:
        GIVE(0x82, 0x00);
    }
    GIVE(0x30, 0x80);
    for (uint64_t left = any() % 5; left > 0; left--)
        give_integer(0x02, 12);
    GIVE(0x00, 0x00);
    if (any() % 2)
        give_text(0x83, letters, any() % 10);
    switch (any() % 4) {
    case 0:
        GIVE(0x84, 0x01, 0x00);
        break;
    case 1:
        give_integer(0x84, 8);
    }
    GIVE(0x00, 0x00);
}

static void give_loose_record(void)
{
    loose = 1;
    give_record();
}

/* One string of as many segments of so many octets as a value can have. */
static void give_segments(size_t size)
{
    size_t whole = size < 128 ? size + 2 : size + 4;
    GIVE(0x24, 0x80);
    for (size_t count = (MOST - 16) / whole; count > 0; count--) {
        if (size < 128)
            GIVE(0x04, (octet)size);
        else
            GIVE(0x04, 0x82, (octet)(size >> 8), (octet)size);
        for (size_t i = 0; i < size; i++)
            GIVE((octet)any());
    }
    GIVE(0x00, 0x00);
}

static void give_set(void)
{
    GIVE(0x31, 0x80);
    for (int i = 0; i < ITEMS; i++)
        give_integer(0x02, 32);
    GIVE(0x00, 0x00);
}

/* As many items as a value can have: each of so many octets, which `fill` gives of the place. */
static void give_full_set(size_t size, void (*fill)(octet *contents, size_t place))
{
    octet item[2 + NARROW] = {0x02, (octet)size};
    GIVE(0x31, 0x80);
    for (size_t place = 0; place < (MOST - 16) / (2 + size); place++) {
        fill(item + 2, place);
        give(item, 2 + size);
    }
    GIVE(0x00, 0x00);
}

static void fill_at_random(octet *contents, size_t place)
{
    (void)place;
    contents[0] = (octet)(1 + any() % 126);
    for (int i = 1; i < 4; i++)
        contents[i] = (octet)any();
}

static void fill_alike(octet *contents, size_t place)
{
    (void)place;
    memcpy(contents, (const octet[]){1, 2, 3, 4}, 4);
}

static void fill_descending(octet *contents, size_t place)
{
    uint32_t left = 0x7fffffff - (uint32_t)place;
    for (int i = 0; i < 4; i++)
        contents[i] = (octet)(left >> (24 - 8 * i));
}

/* Items that differ in the last four of sixteen octets. */
static void fill_behind_fronts(octet *contents, size_t place)
{
    memset(contents, 0x55, 12);
    fill_at_random(contents + 12, place);
}

static void give_random_set(void)
{
    give_full_set(4, fill_at_random);
}

static void give_equal_set(void)
{
    give_full_set(4, fill_alike);
}

static void give_descending_set(void)
{
    give_full_set(4, fill_descending);
}

static void give_set_of_fronts(void)
{
    give_full_set(16, fill_behind_fronts);
}

static void give_numbered(unsigned number)
{
    octet contents[2] = {(octet)(1 + any() % 126), (octet)any()};
    if (number < 31)
        GIVE((octet)(0x80 | number), 2);
    else if (number < 128)
        GIVE(0x9f, (octet)number, 2);
    else
        GIVE(0x9f, (octet)(0x80 | number >> 7), (octet)(number & 127), 2);
    give(contents, 2);
}

/* A list of 150,000 items under so many tags from the first on. */
static void give_choices_of(unsigned first, unsigned count)
{
    GIVE(0x30, 0x80);
    for (int i = 0; i < 150000; i++)
        give_numbered(first + (unsigned)(any() % count));
    GIVE(0x00, 0x00);
}

static void give_choices(void)
{
    give_choices_of(0, NUMBERS);
}

static void give_choices_of_two(void)
{
    give_choices_of(200, 2);
}

static void give_members(void)
{
    GIVE(0x31, 0x80);
    for (unsigned number = NUMBERS; number-- > 0;)
        give_numbered(number);
    GIVE(0x00, 0x00);
}

static void give_chain(void)
{
    for (size_t level = 0; level < LEVELS; level++)
        GIVE(chain_tag(level), 0x80);
    give_integer(0x02, 16);
    for (size_t level = 0; level < LEVELS; level++)
        GIVE(0x00, 0x00);
}

static void give_chain_around_list(void)
{
    for (size_t level = 0; level < LEVELS - 1; level++)
        GIVE(chain_tag(level), 0x80);
    GIVE(0x30, 0x80);
    for (size_t end = made + MOST - 1000; made < end;)
        give_integer(0x02, 24);
    for (size_t level = 0; level < LEVELS; level++)
        GIVE(0x00, 0x00);
}

static void give_pair(int depth)
{
    GIVE(0x30, 0x80);
    for (octet tag = 0xa0; tag <= 0xa1; tag++) {
        GIVE(tag, 0x80);
        if (depth == DEPTH)
            give_integer(0x02, 16);
        else
            give_pair(depth + 1);
        GIVE(0x00, 0x00);
    }
    GIVE(0x00, 0x00);
}

static void give_branches(void)
{
    give_pair(1);
}

static void give_nulls(void)
{
    GIVE(0x30, 0x80);
    for (int i = 0; i < (MOST - 16) / 2; i++)
        GIVE(0x05, 0x00);
    GIVE(0x00, 0x00);
}

static void give_boolean(void)
{
    GIVE(0x01, 0x01, (octet)(any() % 4));
}

/* The certificates on the standard input: their octets, and where the next one stands. */
static octet examples[1 << 16];
static size_t examples_length, next_example;

static void read_examples(void)
{
    unsigned one;
    while (scanf("%2x", &one) == 1) {
        if (examples_length == sizeof examples)
            die("too many certificates");
        examples[examples_length++] = (octet)one;
    }
    if (examples_length == 0)
        die("no certificates on the standard input");
}

/* The end of the encoding that begins here, in the definite form under a tag of one octet. */
static const octet *end_of(const octet **contents, const octet *from, const octet *end)
{
    at = from + 1;
    size_t length = take_definite(end);
    *contents = at;
    return at + length;
}

/* Gives encodings of the definite form with each constructed one in the indefinite form. */
static void give_indefinite(const octet *from, const octet *end)
{
    while (from < end) {
        const octet *contents, *last = end_of(&contents, from, end);
        if (*from & 0x20) {
            GIVE(*from, 0x80);
            give_indefinite(contents, last);
            GIVE(0x00, 0x00);
        } else {
            give(from, (size_t)(last - from));
        }
        from = last;
    }
}

/* Takes the next certificate. */
static const octet *example(const octet **from)
{
    const octet *contents;
    if (examples_length == 0)
        read_examples();
    *from = examples + next_example;
    const octet *end = end_of(&contents, *from, examples + examples_length);
    next_example = (size_t)(end - examples) % examples_length;
    return end;
}

static void give_certificate(void)
{
    const octet *from, *end = example(&from);
    give(from, (size_t)(end - from));
}

static void give_indefinite_certificate(void)
{
    const octet *from, *end = example(&from);
    give_indefinite(from, end);
}

static void give_long_segments(void)
{
    give_segments(1000);
}

static void give_short_segments(void)
{
    give_segments(1);
}

/* The works. */

struct work {
    const char *name;
    void (*convert)(void);
    void (*give)(void);
    /* How many values, or 0 for INPUT octets. */
    size_t values;
    /* Empty where it is a file, NULL where it is printed. */
    const char *module;
    void (*print_module)(void);
};

static const struct work works[] = {
    {"records", record, give_record, 200000, records_module},
    {"loose_records", record, give_loose_record, 200000, records_module},
    {"segments_of_1000", octet_string, give_long_segments, 0,
        "Strings DEFINITIONS ::= BEGIN Value ::= OCTET STRING END\n"},
    {"segments_of_1", octet_string, give_short_segments, 0,
        "Strings DEFINITIONS ::= BEGIN Value ::= OCTET STRING END\n"},
    {"sets", set_of_integer, give_set, 0, sets_module},
    {"random_sets", set_of_integer, give_random_set, 8, sets_module},
    {"equal_sets", set_of_integer, give_equal_set, 8, sets_module},
    {"descending_sets", set_of_integer, give_descending_set, 8,
        sets_module},
    {"sets_of_fronts", set_of_integer, give_set_of_fronts, 8,
        sets_module},
    {"choices", list_of_choices, give_choices, 8, NULL, choices_module},
    {"disordered_choices", list_of_choices, give_choices, 8, NULL, disordered_choices_module},
    {"choices_of_two", list_of_choices, give_choices_of_two, 8, NULL, choices_of_two_module},
    {"members", set_of_numbers, give_members, 0, NULL, members_module},
    {"chains", chain, give_chain, 0, NULL, chain_module},
    {"chains_around_lists", chain_around_list, give_chain_around_list, 8, NULL, chain_around_list_module},
    {"branches", branches, give_branches, 0, NULL, branches_module},
    {"nulls", sequence_of_null, give_nulls, 1, "Nulls DEFINITIONS ::= BEGIN Value ::= SEQUENCE OF NULL END\n"},
    {"certificates", certificate, give_certificate, 0, ""},
    {"indefinite_certificates", certificate, give_indefinite_certificate, 0, ""},
    {"booleans", one_boolean, give_boolean, 2000000, "Booleans DEFINITIONS ::= BEGIN Value ::= BOOLEAN END\n"},
};

static const struct work *work_of(const char *name)
{
    for (size_t i = 0; i < sizeof works / sizeof *works; i++)
        if (strcmp(works[i].name, name) == 0)
            return &works[i];
    die("no such work");
    return NULL;
}

/* Measuring. */

static int64_t micros(struct timeval time)
{
    return (int64_t)time.tv_sec * 1000000 + time.tv_usec;
}

/* Runs a command once, and returns its processor time; `memory` becomes what it had resident, where that is more. */
static int64_t run_once(char **words, int64_t *memory)
{
    pid_t child = fork();
    if (child < 0)
        die("cannot start a process");
    if (child == 0) {
        int nowhere = open("/dev/null", O_WRONLY);
        if (nowhere < 0 || dup2(nowhere, 1) < 0)
            _exit(126);
        execv(words[0], words);
        _exit(127);
    }
    int status;
    struct rusage usage;
    if (wait4(child, &status, 0, &usage) < 0)
        die("cannot wait");
    if (usage.ru_maxrss > *memory)
        *memory = usage.ru_maxrss;
    if (!WIFEXITED(status) || WEXITSTATUS(status) != 0)
        die("the command did not end with status 0");
    return micros(usage.ru_utime) + micros(usage.ru_stime);
}

/*
 * The commands are run in turn: what makes the machine slower for a while does so for each of them. Of a time the least
 * is told: medians of one program over one input were 1.6 times apart within minutes.
 */
static int measure(int runs, char **words)
{
    enum { MOST_COMMANDS = 8 };
    int64_t least[MOST_COMMANDS], memory[MOST_COMMANDS] = {0};
    char **commands[MOST_COMMANDS];
    int count = 0;
    if (runs < 1)
        die("at least one run");
    for (char **word = words; word[0] != NULL; count++) {
        if (count == MOST_COMMANDS)
            die("1 to 8 commands");
        least[count] = INT64_MAX;
        commands[count] = word;
        while (word[0] != NULL && strcmp(word[0], "--") != 0)
            word++;
        if (word[0] != NULL)
            *word++ = NULL;
    }
    for (int run = 0; run < runs; run++) {
        for (int i = 0; i < count; i++) {
            int64_t time = run_once(commands[i], &memory[i]);
            if (time < least[i])
                least[i] = time;
        }
    }
    for (int i = 0; i < count; i++)
        printf("%lld %lld\n", (long long)least[i], (long long)memory[i]);
    return 0;
}

int main(int count, char **words)
{
    if (count >= 4 && strcmp(words[1], "measure") == 0)
        return measure(atoi(words[2]), words + 3);
    if (count < 3) {
        fprintf(stderr, "usage: floor make WORK | convert WORK FILE | module WORK | measure RUNS WORD.. [-- WORD..]..\n");
        return 64;
    }
    const struct work *work = work_of(words[2]);
    if (strcmp(words[1], "module") == 0) {
        if (work->module == NULL)
            work->print_module();
        else
            fputs(work->module, stdout);
        return 0;
    }
    if (strcmp(words[1], "make") == 0) {
        for (size_t i = 0; work->values ? i < work->values : made < INPUT; i++)
            work->give();
    } else if (count == 4 && strcmp(words[1], "convert") == 0) {
        make_alphabets();
        open_input(words[3]);
        while (has_value())
            work->convert();
    } else {
        die("make, convert, module or measure");
    }
    flush();
    return 0;
}
