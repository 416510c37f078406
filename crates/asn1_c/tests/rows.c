/* Rows of octets and what the library has to answer, from X.690 and from the definitions' worked examples. Each row
   lies once right before a page that can't be read and once right behind one, so that an octet read outside of it is a
   fault. Each buffer comes with the size that is needed, and with one octet less, before such a page. No call may ask
   for memory: by the linker's --wrap for malloc, realloc and calloc requests during calls are counted, and refused. */
#define _DEFAULT_SOURCE
#include "asn1.h"
#include <stdio.h>
#include <stdlib.h>
#include <string.h>
#include <sys/mman.h>
#include <unistd.h>

static unsigned long passed, failed, requests;
static bool is_calling;

void *__real_malloc(size_t size);
void *__real_realloc(void *old, size_t size);
void *__real_calloc(size_t count, size_t size);

void *__wrap_malloc(size_t size) {
    requests += is_calling;
    return is_calling ? NULL : __real_malloc(size);
}

void *__wrap_realloc(void *old, size_t size) {
    requests += is_calling;
    return is_calling ? NULL : __real_realloc(old, size);
}

void *__wrap_calloc(size_t count, size_t size) {
    requests += is_calling;
    return is_calling ? NULL : __real_calloc(count, size);
}

static void expect(bool holds, const char *what, const char *row) {
    if (holds) {
        passed++;
    } else {
        failed++;
        printf("failed: %s: %s\n", row, what);
    }
}

/* Some pages that can be read and written, between two that can't. */
struct pages {
    uint8_t *start;
    size_t count;
};

static struct pages pages_of(size_t least) {
    size_t page = (size_t)sysconf(_SC_PAGESIZE), count = (least + page) / page * page;
    uint8_t *all = mmap(NULL, count + 2 * page, PROT_NONE, MAP_PRIVATE | MAP_ANONYMOUS, -1, 0);
    if (all == MAP_FAILED || mprotect(all + page, count, PROT_READ | PROT_WRITE)) exit(2);
    return (struct pages){all + page, count};
}

/* The octets in front of the page behind these, or behind the page before these. */
static uint8_t *placed(struct pages at, const uint8_t *octets, size_t count, bool in_front) {
    uint8_t *place = in_front ? at.start + at.count - count : at.start;
    memcpy(place, octets, count);
    return place;
}

static size_t from_hex(const char *hex, uint8_t *octets) {
    size_t count = 0;
    for (unsigned octet; sscanf(hex + 2 * count, "%2x", &octet) == 1; count++) octets[count] = (uint8_t)octet;
    return count;
}

#define CALL(to) \
    do { \
        is_calling = true; \
        called = (to); \
        is_calling = false; \
    } while (0)

static const struct {
    const char *hex;
    uint32_t answer;
    uint32_t number;
    uint8_t class_number;
    bool constructed;
    size_t header, contents, needed;
} ELEMENTS[] = {
    {"", ASN1_SHORT_DATA, 0, 0, 0, 0, 0, 1},
    {"04", ASN1_SHORT_DATA, 0, 0, 0, 0, 0, 1},
    {"040361626300", ASN1_OK, 4, 0, 0, 2, 3, 0},
    {"04036162", ASN1_SHORT_DATA, 0, 0, 0, 0, 0, 1},
    {"0405", ASN1_SHORT_DATA, 0, 0, 0, 0, 0, 5},
    {"048200", ASN1_SHORT_DATA, 0, 0, 0, 0, 0, 1},
    {"04820010", ASN1_INVALID_LENGTH, 0, 0, 0, 0, 0, 0},
    {"0180", ASN1_INVALID_LENGTH, 0, 0, 0, 0, 0, 0},
    {"0485", ASN1_INVALID_LENGTH, 0, 0, 0, 0, 0, 0},
    {"04847fffffff", ASN1_SHORT_DATA, 0, 0, 0, 0, 0, 0x7fffffff},
    {"1f9080808080", ASN1_SHORT_DATA, 0, 0, 0, 0, 0, 1},
    {"1f908080808000", ASN1_INVALID_TAG, 0, 0, 0, 0, 0, 0},
    {"1f8fffffff7f00", ASN1_OK, 4294967295, 0, 0, 7, 0, 0},
    {"1f1e", ASN1_INVALID_TAG, 0, 0, 0, 0, 0, 0},
    {"1f80", ASN1_INVALID_TAG, 0, 0, 0, 0, 0, 0},
    {"3f81800100", ASN1_OK, 16385, 0, 1, 5, 0, 0},
    {"41820100", ASN1_SHORT_DATA, 0, 0, 0, 0, 0, 256},
    {"a003020102", ASN1_OK, 0, 2, 1, 2, 3, 0},
    {"c10100", ASN1_OK, 1, 3, 0, 2, 1, 0},
};

static void elements(struct pages at) {
    for (size_t i = 0; i < sizeof ELEMENTS / sizeof *ELEMENTS; i++) {
        for (int in_front = 0; in_front < 2; in_front++) {
            uint8_t octets[64];
            uint32_t called;
            const char *hex = ELEMENTS[i].hex;
            size_t count = from_hex(hex, octets);
            struct asn1_element found = {9, 9, 1, 9, 9}, before = found;
            struct asn1_error error;
            memset(&error, 0xff, sizeof error);
            CALL(asn1_strip_tlv(placed(at, octets, count, in_front), count, &found, &error));
            expect(called == ELEMENTS[i].answer, "another answer", hex);
            expect(error.number == called && error.needed == ELEMENTS[i].needed, "another error", hex);
            expect(!error.tag_number && !error.min && !error.max && !error.actual, "details of another error", hex);
            if (called != ASN1_OK) {
                expect(found.number == before.number && found.header_length == before.header_length, "it is set", hex);
                continue;
            }
            expect(found.number == ELEMENTS[i].number && found.class_number == ELEMENTS[i].class_number, "tag", hex);
            expect(found.constructed == ELEMENTS[i].constructed, "form", hex);
            expect(found.header_length == ELEMENTS[i].header, "header", hex);
            expect(found.contents_length == ELEMENTS[i].contents, "contents", hex);
        }
    }
}

static const struct {
    const char *hex;
    uint32_t type, answer;
} CHECKS[] = {
    {"0101ff", ASN1_BOOLEAN, ASN1_OK},
    {"010101", ASN1_BOOLEAN, ASN1_INVALID_VALUE},
    {"020105", ASN1_BOOLEAN, ASN1_UNEXPECTED_TAG},
    {"0101ff00", ASN1_BOOLEAN, ASN1_EXTRA_DATA},
    {"8101ff", ASN1_ANY, ASN1_OK},
    {"020100", ASN1_INTEGER, ASN1_OK},
    {"02020001", ASN1_INTEGER, ASN1_INVALID_VALUE},
    {"0201ff", ASN1_UNSIGNED_INTEGER, ASN1_INVALID_VALUE},
    {"0500", ASN1_NULL, ASN1_OK},
    {"050100", ASN1_NULL, ASN1_INVALID_VALUE},
    {"0403616263", ASN1_OCTET_STRING, ASN1_OK},
    {"0307040a3b5f291cd0", ASN1_BIT_STRING, ASN1_OK},
    {"0307040a3b5f291cd1", ASN1_BIT_STRING, ASN1_INVALID_VALUE},
    {"0c02c3a9", ASN1_UTF8_STRING, ASN1_OK},
    {"0c01c3", ASN1_UTF8_STRING, ASN1_INVALID_VALUE},
    {"13054a6f6e6573", ASN1_PRINTABLE_STRING, ASN1_OK},
    {"13012a", ASN1_PRINTABLE_STRING, ASN1_INVALID_VALUE},
    {"1a054a6f6e6573", ASN1_VISIBLE_STRING, ASN1_OK},
    {"0603813403", ASN1_OBJECT_IDENTIFIER, ASN1_OK},
    {"06028001", ASN1_OBJECT_IDENTIFIER, ASN1_INVALID_VALUE},
    {"3106020101020102", ASN1_SET_OF_INTEGER, ASN1_OK},
    {"3106020102020101", ASN1_SET_OF_INTEGER, ASN1_INVALID_SET_ORDERING},
    {"3006020102020101", ASN1_SEQUENCE_OF_INTEGER, ASN1_OK},
    {"0101ff", 0, ASN1_UNKNOWN_TYPE},
    {"0101ff", 31, ASN1_UNKNOWN_TYPE},
    {"0101ff", 0xffffffff, ASN1_UNKNOWN_TYPE},
};

static void checks(struct pages at) {
    for (size_t i = 0; i < sizeof CHECKS / sizeof *CHECKS; i++) {
        for (int in_front = 0; in_front < 2; in_front++) {
            uint8_t octets[64];
            uint32_t called;
            const char *hex = CHECKS[i].hex;
            size_t count = from_hex(hex, octets);
            struct asn1_error error;
            CALL(asn1_check(CHECKS[i].type, placed(at, octets, count, in_front), count, &error));
            expect(called == CHECKS[i].answer && error.number == called, "another answer", hex);
            if (called == ASN1_UNEXPECTED_TAG) {
                expect(error.tag_number == 2 && !error.tag_class && !error.tag_constructed, "another tag", hex);
            }
            for (size_t cut = 0; called == ASN1_OK && cut < count; cut++) {
                CALL(asn1_check(CHECKS[i].type, placed(at, octets, cut, in_front), cut, &error));
                expect(called == ASN1_SHORT_DATA && error.needed <= count - cut && error.needed, "cut", hex);
                called = ASN1_OK;
            }
        }
    }
}

static const struct {
    const char *hex;
    uint32_t bits, answer;
    int64_t value;
} SIGNED[] = {
    {"02017f", 8, ASN1_OK, 127},
    {"02020080", 8, ASN1_INTEGER_OVERFLOW, 0},
    {"02020080", 16, ASN1_OK, 128},
    {"020180", 8, ASN1_OK, -128},
    {"0202ff7f", 16, ASN1_OK, -129},
    {"0202ff80", 16, ASN1_INVALID_VALUE, 0},
    {"020480000000", 32, ASN1_OK, INT32_MIN},
    {"02087fffffffffffffff", 64, ASN1_OK, INT64_MAX},
    {"02088000000000000000", 64, ASN1_OK, INT64_MIN},
    {"0209008000000000000000", 64, ASN1_INTEGER_OVERFLOW, 0},
    {"020101", 7, ASN1_UNKNOWN_TYPE, 0},
    {"020101", 0, ASN1_UNKNOWN_TYPE, 0},
};

static const struct {
    const char *hex;
    uint32_t bits, answer;
    uint64_t value;
} UNSIGNED[] = {
    {"02017f", 8, ASN1_OK, 127},
    {"020200ff", 8, ASN1_OK, 255},
    {"02020100", 8, ASN1_INTEGER_OVERFLOW, 0},
    {"02020100", 16, ASN1_OK, 256},
    {"0201ff", 64, ASN1_INVALID_VALUE, 0},
    {"020500ffffffff", 32, ASN1_OK, UINT32_MAX},
    {"020900ffffffffffffffff", 64, ASN1_OK, UINT64_MAX},
    {"020101", 128, ASN1_UNKNOWN_TYPE, 0},
};

static void numbers(struct pages at) {
    uint8_t octets[64];
    struct asn1_error error;
    uint32_t called;
    for (size_t i = 0; i < sizeof SIGNED / sizeof *SIGNED; i++) {
        int64_t value = 42;
        size_t count = from_hex(SIGNED[i].hex, octets);
        CALL(asn1_read_signed(SIGNED[i].bits, placed(at, octets, count, true), count, &value, &error));
        expect(called == SIGNED[i].answer && error.number == called, "another answer", SIGNED[i].hex);
        expect(value == (called == ASN1_OK ? SIGNED[i].value : 42), "another number", SIGNED[i].hex);
    }
    for (size_t i = 0; i < sizeof UNSIGNED / sizeof *UNSIGNED; i++) {
        uint64_t value = 42;
        size_t count = from_hex(UNSIGNED[i].hex, octets);
        CALL(asn1_read_unsigned(UNSIGNED[i].bits, placed(at, octets, count, true), count, &value, &error));
        expect(called == UNSIGNED[i].answer && error.number == called, "another answer", UNSIGNED[i].hex);
        expect(value == (called == ASN1_OK ? UNSIGNED[i].value : 42), "another number", UNSIGNED[i].hex);
    }
    bool value = false;
    size_t count = from_hex("0101ff", octets);
    CALL(asn1_read_bool(placed(at, octets, count, true), count, &value, &error));
    expect(called == ASN1_OK && value, "true is read", "0101ff");
    octets[2] = 1;
    CALL(asn1_read_bool(placed(at, octets, count, true), count, &value, &error));
    expect(called == ASN1_INVALID_VALUE && value, "the value stays", "010101");
    struct asn1_bits bits = {0, 0, 0};
    count = from_hex("0307040a3b5f291cd0", octets);
    CALL(asn1_read_bits(placed(at, octets, count, true), count, &bits, &error));
    expect(called == ASN1_OK && bits.start == 3 && bits.count == 6 && bits.padding == 4, "bits", "0307040a3b5f291cd0");
}

/* The examples of X.690 11.7.5 and 11.8.3. */
static const struct {
    const char *text;
    bool is_valid;
    struct asn1_time time;
} TIMES[] = {
    {"920521000000Z", true, {1992, 5, 21, 0, 0, 0, 0}},
    {"920622123421Z", true, {1992, 6, 22, 12, 34, 21, 0}},
    {"920722132100Z", true, {1992, 7, 22, 13, 21, 0, 0}},
    {"920520240000Z", false, {0}},
    {"9207221321Z", false, {0}},
    {"19920521000000Z", true, {1992, 5, 21, 0, 0, 0, 0}},
    {"19920622123421Z", true, {1992, 6, 22, 12, 34, 21, 0}},
    {"19920722132100.3Z", true, {1992, 7, 22, 13, 21, 0, 300000000}},
    {"19920520240000Z", false, {0}},
    {"19920622123421.0Z", false, {0}},
    {"19920722132100.30Z", false, {0}},
};

static void times(struct pages at) {
    for (size_t i = 0; i < sizeof TIMES / sizeof *TIMES; i++) {
        const char *text = TIMES[i].text;
        size_t length = strlen(text);
        uint8_t octets[64] = {length < 14 ? 0x17 : 0x18, (uint8_t)length};
        uint32_t called;
        struct asn1_time found;
        struct asn1_error error;
        const struct asn1_time *time = &TIMES[i].time;
        memset(&found, 0, sizeof found);
        memcpy(octets + 2, text, length);
        uint8_t *place = placed(at, octets, length + 2, true);
        if (length < 14) {
            CALL(asn1_read_utc_time(place, length + 2, &found, &error));
        } else {
            CALL(asn1_read_generalized_time(place, length + 2, &found, &error));
        }
        expect(called == (TIMES[i].is_valid ? ASN1_OK : ASN1_INVALID_VALUE), "another answer", text);
        expect(found.year == time->year && found.month == time->month && found.day == time->day, "another date", text);
        expect(found.hour == time->hour && found.minute == time->minute, "another time of day", text);
        expect(found.second == time->second && found.nanoseconds == time->nanoseconds, "another second", text);
    }
}

/* X.690 8.19.5, and others; the last has the longest text. */
static const struct {
    const char *hex, *text;
} IDENTIFIERS[] = {
    {"0603813403", "2.100.3"},
    {"06032a0304", "1.2.3.4"},
    {"0603550403", "2.5.4.3"},
    {"060127", "0.39"},
    {"063f7f7f7f7f7f7f7f7f7f7f7f7f7f7f7f7f7f7f7f7f7f7f7f7f7f7f7f7f7f7f7f7f7f7f7f7f7f7f7f7f7f7f7f7f7f7f7f7f7f7f"
     "7f7f7f7f7f7f7f7f7f7f7f7f7f",
     "2.47.127.127.127.127.127.127.127.127.127.127.127.127.127.127.127.127.127.127.127.127.127.127.127.127.127"
     ".127.127.127.127.127.127.127.127.127.127.127.127.127.127.127.127.127.127.127.127.127.127.127.127.127.127"
     ".127.127.127.127.127.127.127.127.127.127.127"},
};

static void identifiers(struct pages at, struct pages buffer) {
    for (size_t i = 0; i < sizeof IDENTIFIERS / sizeof *IDENTIFIERS; i++) {
        const char *hex = IDENTIFIERS[i].hex, *text = IDENTIFIERS[i].text;
        uint8_t octets[128];
        uint32_t called;
        struct asn1_error error;
        size_t count = from_hex(hex, octets), wanted = strlen(text), length = 7;
        uint8_t *place = placed(at, octets, count, true);
        char *end = (char *)buffer.start + buffer.count;
        CALL(asn1_read_oid(place, count, end - wanted, wanted, &length, &error));
        expect(called == ASN1_OK && length == wanted && !memcmp(end - wanted, text, wanted), "another text", hex);
        memset(end - wanted, '#', wanted);
        CALL(asn1_read_oid(place, count, end - wanted + 1, wanted - 1, &length, &error));
        expect(called == ASN1_BUFFER_TOO_SMALL && error.number == called && length == wanted, "too small", hex);
        expect(end[-1] == '#' && end[1 - (long)wanted] == '#', "a buffer that is too small is written", hex);
        CALL(asn1_read_oid(place, count - 1, end - wanted, wanted, &length, &error));
        expect(called == ASN1_SHORT_DATA && !length && end[-1] == '#', "an error leaves no text", hex);
    }
    for (uint32_t number = 0; number < 70; number++) {
        char text[64], *end = (char *)buffer.start + buffer.count;
        uint32_t called;
        size_t length = 0, again = 0;
        CALL(asn1_error_text(number, text, sizeof text, &length));
        expect(called == ASN1_OK && length > 4 && length <= sizeof text, "a text", "asn1_error_text");
        CALL(asn1_error_text(number, end - length, length, &again));
        expect(called == ASN1_OK && !memcmp(end - length, text, length), "the same text", "asn1_error_text");
        memset(end - length, '#', length);
        CALL(asn1_error_text(number, end - length + 1, length - 1, &again));
        expect(called == ASN1_BUFFER_TOO_SMALL && again == length && end[-1] == '#', "too small", "asn1_error_text");
    }
}

/* Elements, and the contents octets of the SET OF with these, by the rule of X.690 11.6: the shorter of two is compared as
   if zeros followed it. */
static const struct {
    const char *hex, *contents;
    uint32_t answer;
} SETS[] = {
    {"", "", ASN1_OK},
    {"0500", "0500", ASN1_OK},
    {"020102020101", "020101020102", ASN1_OK},
    {"0201010500020101", "0201010201010500", ASN1_OK},
    {"0202010002017f", "02017f02020100", ASN1_OK},
    {"040201000403010000040101", "040101040201000403010000", ASN1_OK},
    {"a003020100310005000101ff300302010502010830030201040c0141", "0101ff0201080500"
     "0c0141300302010430030201053100a003020100", ASN1_OK},
    {"02010102", "", ASN1_SHORT_DATA},
    {"020101020201", "", ASN1_SHORT_DATA},
    {"05000480", "", ASN1_INVALID_LENGTH},
    {"05001f1e", "", ASN1_INVALID_TAG},
};

static void sets(struct pages at, struct pages buffer) {
    for (size_t i = 0; i < sizeof SETS / sizeof *SETS; i++) {
        const char *hex = SETS[i].hex;
        uint8_t octets[64], wanted[64], *end = buffer.start + buffer.count;
        uint32_t called;
        struct asn1_error error;
        size_t count = from_hex(hex, octets), size = from_hex(SETS[i].contents, wanted), length = 7;
        uint8_t *place = placed(at, octets, count, true);
        memset(end - count, '#', count);
        CALL(asn1_set_of(place, count, end - count, count, &length, &error));
        expect(called == SETS[i].answer && error.number == called && length == size, "another answer", hex);
        if (called != ASN1_OK) {
            expect(count && end[-1] == '#' && end[-(long)count] == '#', "an error leaves the buffer", hex);
            continue;
        }
        expect(!memcmp(end - size, wanted, size), "another order", hex);
        CALL(asn1_set_of(wanted, size, octets, sizeof octets, &length, &error));
        expect(called == ASN1_OK && length == size && !memcmp(octets, wanted, size), "the same order", hex);
        if (!size) continue;
        memset(end - count, '#', count);
        CALL(asn1_set_of(place, count, end - count + 1, count - 1, &length, &error));
        expect(called == ASN1_BUFFER_TOO_SMALL && error.number == called && length == size, "too small", hex);
        expect(end[-1] == '#', "a buffer that is too small is written", hex);
    }
}

static int by_octets(const void *a, const void *b) { return memcmp(a, b, 4); }

/* Many elements of one length, of which many are the same: they are in the order of `qsort`. */
static void large_set(void) {
    enum { COUNT = 1000 };
    uint8_t octets[4 * COUNT], contents[4 * COUNT];
    struct asn1_error error;
    size_t length = 0;
    uint32_t called, state = 1;
    for (size_t i = 0; i < COUNT; i++) {
        state = state * 1664525 + 1013904223;
        uint8_t element[4] = {0x04, 0x02, (uint8_t)(state >> 29), (uint8_t)(state >> 20 & 15)};
        memcpy(octets + 4 * i, element, 4);
    }
    CALL(asn1_set_of(octets, sizeof octets, contents, sizeof contents, &length, &error));
    qsort(octets, COUNT, 4, by_octets);
    expect(called == ASN1_OK && length == sizeof octets && !memcmp(octets, contents, length), "order", "many elements");
}

/* Whether an object of the first number is one of the second. Two integers are a key and a signature. */
static bool is_also(uint32_t number, uint32_t other) {
    bool are_integers = number == PKIX_RSA_PUBLIC_KEY || number == PKIX_ECDSA_SIGNATURE;
    if (other == PKIX_KEY) return (number >= PKIX_PUBLIC_KEY && number <= PKIX_RSA_PUBLIC_KEY) || are_integers;
    if (other == PKIX_SIGNATURE) return (number >= PKIX_ECDSA_SIGNATURE && number <= PKIX_SIGNED_DATA) || are_integers;
    return other == number || (are_integers && (other == PKIX_RSA_PUBLIC_KEY || other == PKIX_ECDSA_SIGNATURE));
}

/* At the number of a key or of a signature the same is told as at the number of the form. */
static void forms(const char *name, uint32_t number, const uint8_t *octets, size_t count) {
    for (uint32_t any = PKIX_KEY; any <= PKIX_SIGNATURE; any++) {
        struct asn1_error error, again;
        char place[128], other[128];
        size_t length = 0, other_length = 0;
        uint32_t called, form, answer;
        CALL(pkix_form(any, octets, count));
        form = called;
        expect(any == PKIX_KEY ? form >= 4 && form <= 8 : form >= 9 && form <= 11, "no form", name);
        if (number) expect(!is_also(number, any) || is_also(number, form), "another form", name);
        CALL(pkix_check(any, octets, count, place, sizeof place, &length, &error));
        answer = called;
        CALL(pkix_check(form, octets, count, other, sizeof other, &other_length, &again));
        expect(called == answer && error.number == again.number && error.needed == again.needed, "form", name);
        expect(length == other_length && !memcmp(place, other, length), "another location than of the form", name);
    }
}

/* The octet of an error is found with as much scratch as there are octets, and not with one octet less. */
static void error_octet(const char *name, uint32_t number, const uint8_t *octets, size_t count, size_t wanted,
                        struct pages scratch) {
    uint8_t *end = scratch.start + scratch.count;
    size_t octet = SIZE_MAX;
    bool called;
    CALL(pkix_error_octet(number, octets, count, end - count, count, &octet));
    expect(called && octet == wanted, "another octet of an error", name);
    if (called && octet != wanted) printf("  %zu, and not %zu\n", octet, wanted);
    if (!count) return;
    octet = SIZE_MAX;
    CALL(pkix_error_octet(number, octets, count, end - count + 1, count - 1, &octet));
    expect(!called && octet == SIZE_MAX, "an octet without scratch for it", name);
}

/* No octet is left of octets that are the object, or of a number that no object has. */
static void no_error_octet(const char *name, uint32_t number, const uint8_t *octets, size_t count,
                           struct pages scratch) {
    size_t octet = SIZE_MAX;
    bool called;
    CALL(pkix_error_octet(number, octets, count, scratch.start, scratch.count, &octet));
    expect(!called && octet == SIZE_MAX, "an octet of no error", name);
}

/* A file is the one encoding of that object, of no other; cut anywhere it lacks octets, and with an octet more it has
   one too many. With each octet changed in turn the library answers, within the file. */
static void object(const char *name, uint32_t number) {
    uint8_t *octets = malloc(1 << 16);
    FILE *file = fopen(name, "rb");
    size_t count = file && octets ? fread(octets, 1, 1 << 16, file) : 0, length;
    struct pages at = pages_of(count + 1), scratch = pages_of(count + 1);
    struct asn1_error error;
    char place[128];
    uint32_t called;
    if (file) fclose(file);
    forms(name, number, placed(at, octets, count, true), count);
    CALL(pkix_form(number, octets, count));
    expect(called == number, "an object is its own form", name);
    for (int in_front = 0; in_front < 2; in_front++) {
        CALL(pkix_check(number, placed(at, octets, count, in_front), count, place, 128, &length, &error));
        expect(called == ASN1_OK && error.number == 0 && length == 0, "it is one", name);
    }
    no_error_octet(name, number, placed(at, octets, count, true), count, scratch);
    octets[count] = 0;
    CALL(pkix_check(number, placed(at, octets, count + 1, true), count + 1, place, 128, &length, &error));
    expect(called == ASN1_EXTRA_DATA, "an octet too many", name);
    error_octet(name, number, placed(at, octets, count + 1, true), count + 1, count, scratch);
    for (uint32_t other = 0; other < 17; other++) {
        CALL(pkix_check(other, placed(at, octets, count, true), count, place, 128, &length, &error));
        expect((called == ASN1_OK) == is_also(number, other), "another object has the same encoding", name);
        expect((called == ASN1_UNKNOWN_TYPE) == (other < 1 || other > 15), "an unknown object", name);
        CALL(pkix_form(other, octets, count));
        expect(!called == (other < 1 || other > 15), "an unknown object has a form", name);
    }
    for (size_t cut = 0; cut < count; cut++) {
        CALL(pkix_check(number, placed(at, octets, cut, true), cut, place, 128, &length, &error));
        expect(called == ASN1_SHORT_DATA && error.needed >= 1 && error.needed <= count - cut, "cut", name);
        error_octet(name, number, placed(at, octets, cut, true), cut, cut, scratch);
    }
    for (size_t i = 0; i < count; i++) {
        octets[i] ^= 0x80;
        CALL(pkix_check(number, placed(at, octets, count, true), count, place, 128, &length, &error));
        expect(called == error.number && length <= sizeof place, "changed", name);
        expect(called != ASN1_ALLOCATION_ERROR, "out of memory", name);
        if (called == ASN1_OK) no_error_octet(name, number, placed(at, octets, count, true), count, scratch);
        if (i < 64) forms(name, 0, placed(at, octets, count, true), count);
        octets[i] ^= 0x80;
    }
    free(octets);
}

/* The location of an error comes with the size that it needs. */
static void place(const char *name, size_t changed, uint8_t octet, const char *wanted, struct pages buffer) {
    uint8_t octets[1 << 12];
    FILE *file = fopen(name, "rb");
    size_t count = file ? fread(octets, 1, sizeof octets, file) : 0, size = strlen(wanted), length = 0;
    struct asn1_error error;
    uint32_t called;
    char *end = (char *)buffer.start + buffer.count;
    if (file) fclose(file);
    octets[changed] = octet;
    CALL(pkix_check(PKIX_CERTIFICATE, octets, count, end - size, size, &length, &error));
    expect(called != ASN1_OK && length == size && !memcmp(end - size, wanted, size), "another location", wanted);
    if (length != size) printf("  %.*s\n", (int)(length < size ? length : size), end - size);
    memset(end - size, '#', size);
    CALL(pkix_check(PKIX_CERTIFICATE, octets, count, end - size + 1, size - 1, &length, &error));
    expect(called != ASN1_OK && length == size && end[-1] == '#', "too small", wanted);
}

/* The octets of errors in a certificate, as `openssl asn1parse` counts: which octet is changed, to what, how many
   octets more there are, and at which octet the certificate is rejected, or how many before the end. */
static const struct {
    const char *what;
    size_t changed;
    uint8_t octet;
    int more;
    size_t wanted;
    bool is_from_end;
} OCTETS[] = {
    {"a version that is the default", 12, 0x00, 0, 10, false},
    {"a version of another tag", 10, 0x04, 0, 10, false},
    {"a serial number of another tag", 13, 0x04, 0, 13, false},
    {"a serial number with a zero octet too many", 16, 0x00, 0, 13, false},
    {"a serial number of indefinite length", 14, 0x80, 0, 13, false},
    {"another outermost tag", 0, 0x31, 0, 0, false},
    {"octets are missing", 0, 0x30, -1, 0, true},
    {"octets are left over", 0, 0x30, 1, 1, true},
};

static void error_octets(const char *name) {
    uint8_t all[1 << 12];
    FILE *file = fopen(name, "rb");
    size_t whole = file ? fread(all, 1, sizeof all - 1, file) : 0;
    struct pages at = pages_of(whole + 1), scratch = pages_of(whole + 1);
    if (file) fclose(file);
    all[whole] = 0;
    for (size_t i = 0; i < sizeof OCTETS / sizeof *OCTETS; i++) {
        size_t count = whole + (size_t)OCTETS[i].more;
        size_t wanted = OCTETS[i].is_from_end ? count - OCTETS[i].wanted : OCTETS[i].wanted;
        uint8_t before = all[OCTETS[i].changed];
        all[OCTETS[i].changed] = OCTETS[i].octet;
        for (int in_front = 0; in_front < 2; in_front++) {
            uint8_t *octets = placed(at, all, count, in_front);
            error_octet(OCTETS[i].what, PKIX_CERTIFICATE, octets, count, wanted, scratch);
            no_error_octet(OCTETS[i].what, 0, octets, count, scratch);
            no_error_octet(OCTETS[i].what, 16, octets, count, scratch);
        }
        all[OCTETS[i].changed] = before;
    }
}

int main(int argc, char **argv) {
    struct pages at = pages_of(256), buffer = pages_of(512);
    elements(at);
    checks(at);
    numbers(at);
    times(at);
    identifiers(at, buffer);
    sets(at, buffer);
    large_set();
    for (int i = 1; i + 1 < argc; i += 2) object(argv[i + 1], (uint32_t)atoi(argv[i]));
    if (argc > 2) place(argv[2], 10, 0x04, "tbsCertificate.version", buffer);
    if (argc > 2) error_octets(argv[2]);
    expect(asn1_version() == ASN1_VERSION, "another version", "asn1_version");
    expect(requests == 0, "a call asked for memory", "malloc");
    printf("%lu passed, %lu failed\n", passed, failed);
    return failed > 0 || passed == 0;
}
