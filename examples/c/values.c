/*
 * Does what asn1x does with the same words, by the library:
 *
 *     values check|show|convert MODULE TYPE FILE --hex [--from ber|cer|der] [--to cer|der]
 *     values each MODULE TYPE FILE --hex [--from ber|cer|der] [--to cer|der|text]
 *
 * FILE is hexadecimal text. `each` takes the octets in pieces, and writes a line for each value as it completes. The
 * statuses are those of asn1x.
 */
#include <asn1x.h>
#include <stdio.h>
#include <stdlib.h>
#include <string.h>

static const size_t PIECE = 50;

/* What `each` writes where it is not encodings by a rule. */
enum { TEXT = ASN1X_DER + 1 };

/* The statuses of asn1x. */
enum { REFUSED = 1, MODULE_REFUSED = 2, DEVICE_FAILED = 3, OUT_OF_MEMORY = 4, WRONG_WORDS = 64 };

/* Octets, and how many there are. */
struct octets {
    uint8_t *at;
    size_t length;
};

static void fail(int status, const char *why, const char *what)
{
    fprintf(stderr, "asn1x: %s%s\n", why, what);
    exit(status);
}

static uint8_t *room_for(size_t octets)
{
    uint8_t *at = (uint8_t *)malloc(octets ? octets : 1);
    if (!at)
        fail(OUT_OF_MEMORY, "out of memory", "");
    return at;
}

static struct octets read_file(const char *path)
{
    FILE *file = fopen(path, "rb");
    long length = -1;
    if (file && fseek(file, 0, SEEK_END) == 0)
        length = ftell(file);
    if (length < 0)
        fail(DEVICE_FAILED, "cannot read ", path);
    rewind(file);
    struct octets all = {room_for((size_t)length), (size_t)length};
    if (fread(all.at, 1, all.length, file) != all.length)
        fail(DEVICE_FAILED, "cannot read ", path);
    fclose(file);
    return all;
}

static int digit(uint8_t of)
{
    static const char digits[] = "0123456789abcdef";
    const char *found = of ? strchr(digits, of >= 'A' && of <= 'F' ? of + 32 : of) : NULL;
    return found ? (int)(found - digits) : -1;
}

/* The octets of a hexadecimal text, in its own memory. */
static struct octets unhex(struct octets text)
{
    size_t digits = 0;
    for (size_t i = 0; i < text.length; i++) {
        uint8_t it = text.at[i];
        if (it == ' ' || it == '\t' || it == '\n' || it == '\r')
            continue;
        int value = digit(it);
        if (value < 0)
            fail(REFUSED, "not hexadecimal", "");
        uint8_t *to = text.at + digits / 2;
        *to = (uint8_t)(digits % 2 ? *to * 16 + value : value);
        digits++;
    }
    if (digits % 2)
        fail(REFUSED, "not hexadecimal", "");
    text.length = digits / 2;
    return text;
}

static int rule_of(const char *name)
{
    static const char *const names[] = {"ber", "cer", "der", "text"};
    for (int i = ASN1X_BER; i <= TEXT; i++)
        if (strcmp(name, names[i]) == 0)
            return i;
    fail(WRONG_WORDS, "no such rule: ", name);
    return -1;
}

/* The name of a refusal or a fault. */
static const char *name_of(uint32_t number)
{
    static char name[17];
    size_t length = asn1x_name(number, (uint8_t *)name, sizeof name - 1);
    name[length < sizeof name ? length : 0] = 0;
    return name;
}

/* Says why a call stopped, if it did, and returns the status that goes with it. */
static int status_of(uint32_t refusal, uint64_t values)
{
    if (refusal == ASN1X_OK)
        return 0;
    fflush(stdout);
    fprintf(stderr, "asn1x: refused %u %s after %llu values\n", (unsigned)refusal, name_of(refusal),
            (unsigned long long)values);
    return refusal == ASN1X_NO_MEMORY ? OUT_OF_MEMORY : refusal == ASN1X_SINK_FAULT ? DEVICE_FAILED : REFUSED;
}

static void print_digits(const uint8_t *octets, size_t length)
{
    for (size_t i = 0; i < length; i++)
        printf("%02x", octets[i]);
    if (length)
        putchar('\n');
}

static int check(asn1x_type *type, int from, struct octets octets)
{
    asn1x_done done = asn1x_check(type, (uint32_t)from, octets.at, octets.length);
    if (done.refusal == ASN1X_OK)
        printf("ok %llu\n", (unsigned long long)done.values);
    return status_of(done.refusal, done.values);
}

static void grow(struct octets *room, size_t octets)
{
    free(room->at);
    *room = (struct octets){room_for(octets), octets};
}

/* A call that has too little room says how much it takes, and is made again. */
static int convert(asn1x_type *type, int from, int to, struct octets octets)
{
    struct octets out = {room_for(1), 1};
    asn1x_done done = asn1x_convert(type, (uint32_t)from, (uint32_t)to, octets.at, octets.length, out.at, out.length);
    if (done.octets > out.length) {
        grow(&out, done.octets);
        done = asn1x_convert(type, (uint32_t)from, (uint32_t)to, octets.at, octets.length, out.at, out.length);
    }
    print_digits(out.at, done.octets);
    free(out.at);
    return status_of(done.refusal, done.values);
}

static int show(asn1x_type *type, int from, struct octets octets)
{
    struct octets out = {room_for(1), 1};
    asn1x_done done = asn1x_show(type, (uint32_t)from, octets.at, octets.length, out.at, out.length);
    if (done.octets > out.length) {
        grow(&out, done.octets);
        done = asn1x_show(type, (uint32_t)from, octets.at, octets.length, out.at, out.length);
    }
    fwrite(out.at, 1, done.octets, stdout);
    free(out.at);
    return status_of(done.refusal, done.values);
}

/* Writes the first value's text or, by a rule, its encoding into `out`, which grows to the room that this takes. */
static asn1x_one first(asn1x_type *type, int from, int to, const uint8_t *octets, size_t length, struct octets *out)
{
    for (;;) {
        asn1x_one one = to == TEXT ? asn1x_show_first(type, (uint32_t)from, octets, length, out->at, out->length)
                                   : asn1x_convert_first(type, (uint32_t)from, (uint32_t)to, octets, length, out->at,
                                                         out->length);
        if (one.octets <= out->length)
            return one;
        grow(out, one.octets);
    }
}

/* Takes the octets in pieces, and goes from value to value. A value that is cut stays in front of the next piece. */
static int each(asn1x_type *type, int from, int to, struct octets octets)
{
    struct octets out = {room_for(1), 1};
    asn1x_one one = {0};
    uint64_t values = 0;
    size_t at = 0, end = 0;
    while (end < octets.length && (one.refusal == ASN1X_OK || one.refusal == ASN1X_TRUNCATED)) {
        end += octets.length - end < PIECE ? octets.length - end : PIECE;
        while (at < end && (one = first(type, from, to, octets.at + at, end - at, &out)).refusal == ASN1X_OK) {
            if (to == TEXT)
                fwrite(out.at, 1, one.octets, stdout);
            else
                print_digits(out.at, one.octets);
            at += one.used;
            values++;
        }
    }
    free(out.at);
    return status_of(one.refusal, values);
}

/* Text is written by `each` alone, and nothing is read by it. */
static void read_rules(int count, char **words, int *from, int *to)
{
    for (int i = 6; i + 1 < count; i += 2)
        *(strcmp(words[i], "--to") == 0 ? to : from) = rule_of(words[i + 1]);
    if (*from == TEXT || (*to == TEXT && strcmp(words[1], "each") != 0))
        fail(WRONG_WORDS, "no such rule: ", "text");
}

int main(int count, char **words)
{
    int from = ASN1X_BER, to = ASN1X_DER;
    if (count < 6 || count % 2 != 0 || strcmp(words[5], "--hex") != 0)
        fail(WRONG_WORDS, "usage: values check|show|convert|each MODULE TYPE FILE --hex [--from RULE] [--to RULE]", "");
    read_rules(count, words, &from, &to);

    struct octets module = read_file(words[2]);
    asn1x_type type = {0};
    asn1x_fault fault = asn1x_type_from(&type, module.at, module.length, (uint8_t *)words[3], strlen(words[3]));
    free(module.at);
    if (fault.number != ASN1X_OK) {
        fprintf(stderr, "asn1x: module refused %u %s at %u:%u\n", (unsigned)fault.number, name_of(fault.number),
                (unsigned)fault.line, (unsigned)fault.column);
        return fault.number == ASN1X_MODULE_NO_MEMORY ? OUT_OF_MEMORY : MODULE_REFUSED;
    }
    struct octets octets = unhex(read_file(words[4]));
    int status = strcmp(words[1], "check") == 0  ? check(&type, from, octets)
                 : strcmp(words[1], "show") == 0 ? show(&type, from, octets)
                 : strcmp(words[1], "each") == 0 ? each(&type, from, to, octets)
                                                 : convert(&type, from, to, octets);
    free(octets.at);
    asn1x_type_free(&type);
    return status;
}
