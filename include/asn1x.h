/*
 * asn1x: reads values in BER, CER or DER by the types of an ASN.1 module, and checks them, shows them as text, or
 * writes the one encoding that CER or DER gives each of them.
 *
 *     asn1x_type type = {0};
 *     asn1x_fault fault = asn1x_type_from(&type, module, module_length, name, name_length);
 *     asn1x_done done = asn1x_convert(&type, ASN1X_BER, ASN1X_DER, octets, length, out, room);
 *     asn1x_type_free(&type);
 *
 * What no call can test, and each caller owes:
 *
 * - An asn1x_type is all zeros before its first call. No one else reads or writes it, and no copy of it is passed.
 * - A pointer leads to as many octets as the length beside it says, and is not NULL, even where the length is 0. A
 *   length is at most PTRDIFF_MAX. What a call writes to overlaps nothing else that is passed to it.
 * - One asn1x_type is used in one thread. Calls of different ones may run side by side. No call is made from a signal
 *   handler.
 * - `malloc`, `realloc` and `free` are those of one allocator.
 *
 * A call keeps no pointer to what it was passed, and never ends the process.
 */
#ifndef ASN1X_H
#define ASN1X_H

#include <stddef.h>
#include <stdint.h>
#ifndef __cplusplus
#include <stdbool.h>
#endif

#ifdef __cplusplus
extern "C" {
#endif

/* The rules. Values are read by each of them, and written by the latter two. */
enum { ASN1X_BER = 0, ASN1X_CER = 1, ASN1X_DER = 2 };

/*
 * Some of the numbers that calls return. 1 to 17 are refusals, and 21 to 33 are faults of a module: docs/REFUSALS.md
 * has all of them, and `asn1x_name` their names.
 */
enum {
    ASN1X_OK = 0,
    /* The octets end within a value. */
    ASN1X_TRUNCATED = 1,
    /* No memory for what is to be written. */
    ASN1X_SINK_FAULT = 16,
    /* No memory. */
    ASN1X_NO_MEMORY = 17,
    ASN1X_MODULE_NO_MEMORY = 33,
    /* An argument that the call cannot take: no type is held, a rule has no such number, or a name is no UTF-8. */
    ASN1X_WRONG_ARGUMENT = 255
};

/* A type, or none. All zeros are none, and what it holds otherwise is for the calls alone. */
typedef struct asn1x_type {
    bool full;
    void *kept;
} asn1x_type;

/* Why a module gives no type, and where: `asn1x` prints this as `module refused NUMBER NAME at LINE:COLUMN`. */
typedef struct asn1x_fault {
    /* ASN1X_OK, 21 to 33, or ASN1X_WRONG_ARGUMENT. */
    uint32_t number;
    /* From 1, a column for each octet of the line; 1 for a fault that has no place. 0 after ASN1X_OK. */
    uint32_t line;
    uint32_t column;
} asn1x_fault;

/* What a call over octets comes to: `asn1x` prints a refusal as `refused REFUSAL NAME after VALUES values`. */
typedef struct asn1x_done {
    /* ASN1X_OK, 1 to 14, 16, 17, or ASN1X_WRONG_ARGUMENT. */
    uint32_t refusal;
    /* How many values were done. */
    uint64_t values;
    /* How many octets there are to write, whether there was room for them or not. Of `asn1x_first`, see there. */
    size_t octets;
} asn1x_done;

/* What a call that writes one value comes to. */
typedef struct asn1x_one {
    /* ASN1X_OK, 1 to 12, 14, 17, or ASN1X_WRONG_ARGUMENT. */
    uint32_t refusal;
    /* How many octets the value has, where one was written; else 0. The next one begins behind them. */
    size_t used;
    /* How many octets there are to write, whether there was room for them or not; 0 after a refusal. */
    size_t octets;
} asn1x_one;

/*
 * Makes the type that a module means by a name, which may refer to other types of the module. The module's text is as
 * it stands in a file, of at most 262,144 octets. The type that was held before is freed. After a fault none is held.
 */
asn1x_fault asn1x_type_from(asn1x_type *type, const uint8_t *module, size_t module_length, const uint8_t *name,
                            size_t name_length);

/* Frees the type that is held, if there is one. None is held then, and a further call does nothing. */
void asn1x_type_free(asn1x_type *type);

/*
 * Reads values of the type by the rule `from`, one after another to the end of the octets, and writes the one encoding
 * of each by the rule `to`, which is ASN1X_CER or ASN1X_DER. All that is written stands at the front of `out` where
 * `octets` of the result is at most `room`; else `out` is as it was, and a call with as much room as `octets` says
 * writes it. After a refusal this is the encodings of the values before it, and after ASN1X_SINK_FAULT perhaps a
 * beginning of the next one. What is written is held in memory of its own until it is put there.
 */
asn1x_done asn1x_convert(asn1x_type *type, uint32_t from, uint32_t to, const uint8_t *octets, size_t length,
                         uint8_t *out, size_t room);

/* Reads values as `asn1x_convert` does, and writes a line of text for each, with a line feed at its end. */
asn1x_done asn1x_show(asn1x_type *type, uint32_t from, const uint8_t *octets, size_t length, uint8_t *out, size_t room);

/* Reads values as `asn1x_convert` does, and writes nothing. */
asn1x_done asn1x_check(asn1x_type *type, uint32_t from, const uint8_t *octets, size_t length);

/*
 * Reads the first value of the octets, and returns in `octets` how many it has; those behind it are not looked at. So a
 * caller goes from value to value, and gives each to one of the calls above. ASN1X_TRUNCATED says that more octets may
 * complete a value: a caller to whom octets come in pieces keeps what is left, and puts the next piece behind it. After
 * 2 to 12 none can; read by CER or DER, this call may name another of them than those above. A value has at most
 * 1,048,576 octets.
 */
asn1x_done asn1x_first(asn1x_type *type, uint32_t from, const uint8_t *octets, size_t length);

/*
 * Reads the first value as `asn1x_first` does, and writes its one encoding by the rule `to`, which is ASN1X_CER or
 * ASN1X_DER. All of it stands at the front of `out` where `octets` of the result is at most `room`; else `out` is as it
 * was, and a call with as much room as `octets` says writes it. So a stream that comes in pieces is converted value by
 * value, and what was read is not read again:
 *
 *     asn1x_one one = asn1x_convert_first(&type, ASN1X_BER, ASN1X_DER, octets + at, length - at, out, room);
 *
 * After ASN1X_OK the caller takes what is in `out`, adds `used` to `at`, and calls again unless `at` is `length` then.
 * After ASN1X_TRUNCATED it keeps the octets from `at` on, and calls again with the next piece behind them, if there is
 * one: the value that is cut, and it alone, is read again from its first octet. After any other refusal more octets do
 * not help.
 */
asn1x_one asn1x_convert_first(asn1x_type *type, uint32_t from, uint32_t to, const uint8_t *octets, size_t length,
                              uint8_t *out, size_t room);

/* Reads the first value as `asn1x_convert_first` does, and writes a line of text for it, with a line feed at its end. */
asn1x_one asn1x_show_first(asn1x_type *type, uint32_t from, const uint8_t *octets, size_t length, uint8_t *out,
                           size_t room);

/*
 * Writes the name of a refusal or of a fault of a module into `out`, with no NUL behind it, and returns how many octets
 * it has. Where that is more than `room`, `out` is as it was. Other numbers have no name. No name has more than 16.
 */
size_t asn1x_name(uint32_t number, uint8_t *out, size_t room);

#ifdef __cplusplus
}
#endif

#endif
