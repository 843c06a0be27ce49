// asn1c's decoder on the cases of a corpus (tools/differential/README.md has their form), as `asn1c` builds it:
//
//     decode PASSES < CASES     decodes each frame PASSES times, with the string inside it, and frees what it got; prints how many
//                               frames there are, and how many were decoded
#include "Aircraft.h"
#include "Ground.h"
#include <stdio.h>
#include <stdlib.h>
#include <string.h>

// Their headers cannot stand beside one another: each declares the members of its lists by the same names.
extern asn_TYPE_descriptor_t asn_DEF_MessageDown, asn_DEF_DataDown, asn_DEF_DataUp;

enum { MOST = 1000 };
static struct frame {
    int ground;
    size_t size;
    unsigned char *octets;
} frames[MOST];

static int inside(asn_TYPE_descriptor_t *type, BIT_STRING_t *string) {
    void *value = NULL;
    asn_dec_rval_t r = uper_decode(NULL, type, &value, string->buf, string->size, 0, string->bits_unused);
    ASN_STRUCT_FREE(*type, value);
    return r.code == RC_OK;
}

// A send; of other messages asn1c decodes the outside alone.
static int aircraft(struct frame *f) {
    Aircraft_t *m = NULL;
    int decoded = uper_decode_complete(NULL, &asn_DEF_Aircraft, (void **)&m, f->octets, f->size).code == RC_OK;
    if (decoded && m->present == Aircraft_PR_c3 && m->choice.c3.m1) decoded = inside(&asn_DEF_MessageDown, m->choice.c3.m1);
    ASN_STRUCT_FREE(asn_DEF_Aircraft, m);
    return decoded;
}

// A forward message; the same holds of others.
static int ground(struct frame *f) {
    Ground_t *m = NULL;
    int decoded = uper_decode_complete(NULL, &asn_DEF_Ground, (void **)&m, f->octets, f->size).code == RC_OK;
    if (decoded && m->present == Ground_PR_c4) {
        int up = m->choice.c4.m3.present == Ground__c4__m3_PR_c0;
        decoded = up ? inside(&asn_DEF_DataUp, &m->choice.c4.m3.choice.c0) : inside(&asn_DEF_DataDown, &m->choice.c4.m3.choice.c1);
    }
    ASN_STRUCT_FREE(asn_DEF_Ground, m);
    return decoded;
}

int main(int argc, char **argv) {
    static char line[200000], hex[100000];
    int passes = argc == 2 ? atoi(argv[1]) : 0, count = 0, decoded = 0;
    if (passes < 1) return 2;
    while (count < MOST && fgets(line, sizeof line, stdin)) {
        char direction;
        if (sscanf(line, "pdus %c %*s %*s %99999s", &direction, hex) != 2) return 2;
        struct frame *f = frames + count++;
        f->ground = direction == '1';
        f->size = strlen(hex) / 2;
        f->octets = malloc(f->size + 1);
        for (size_t i = 0; i < f->size; i++) {
            unsigned octet;
            sscanf(hex + 2 * i, "%2x", &octet);
            f->octets[i] = octet;
        }
    }
    for (int pass = 0; pass < passes; pass++)
        for (int i = 0; i < count; i++) decoded += frames[i].ground ? ground(frames + i) : aircraft(frames + i);
    printf("%d %d\n", count, decoded / passes);
    return 0;
}
