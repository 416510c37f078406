/* Checks each file that is named: whether it is the one DER encoding of a certificate, and how many elements it begins
   with. docs/C.md says how it is built. */
#include "asn1.h"
#include <stdio.h>
#include <stdlib.h>

/* The octets of a file, or NULL. */
static uint8_t *octets_of(const char *name, size_t *count) {
    FILE *file = fopen(name, "rb");
    uint8_t *octets = malloc(1 << 20);
    *count = file && octets ? fread(octets, 1, 1 << 20, file) : 0;
    if (!file || !octets || ferror(file)) {
        free(octets);
        octets = NULL;
    }
    if (file) fclose(file);
    return octets;
}

/* Says what an error is, and where. */
static void tell(const struct asn1_error *error, const char *place, size_t place_length) {
    char text[64];
    size_t length;
    if (asn1_error_text(error->number, text, sizeof text, &length) != ASN1_OK) length = 0;
    printf("  %.*s%s%.*s\n", (int)place_length, place, place_length ? ": " : "", (int)length, text);
}

int main(int argc, char **argv) {
    int status = 0;
    for (int i = 1; i < argc; i++) {
        size_t count, place_length, at = 0, elements = 0;
        char place[128];
        struct asn1_error error;
        struct asn1_element element;
        uint8_t *octets = octets_of(argv[i], &count);
        if (!octets) {
            printf("%s: it can't be read\n", argv[i]);
            status = 2;
            continue;
        }
        /* A stream is cut by its elements. The answer to each is final: more octets don't change it. */
        while (at < count && asn1_strip_tlv(octets + at, count - at, &element, &error) == ASN1_OK) {
            at += element.header_length + element.contents_length;
            elements++;
        }
        printf("%s: %zu elements in the first %zu of %zu octets\n", argv[i], elements, at, count);
        if (at < count) tell(&error, place, 0);
        if (pkix_check(PKIX_CERTIFICATE, octets, count, place, sizeof place, &place_length, &error) == ASN1_OK) {
            printf("  a certificate\n");
        } else {
            uint8_t *scratch = malloc(count + 1);
            size_t octet;
            tell(&error, place, place_length <= sizeof place ? place_length : 0);
            if (scratch && pkix_error_octet(PKIX_CERTIFICATE, octets, count, scratch, count, &octet)) {
                printf("  at octet %zu\n", octet);
            }
            free(scratch);
            status = 1;
        }
        free(octets);
    }
    return status;
}
