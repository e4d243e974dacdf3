/* rows FILE: computes through C what the rows of a file ask for, and compares it with what stands behind their `=`. Of
 * crates/worked_vectors/stdout it takes those of ciphers, derivations, network PDUs, lower transport PDUs, Segment Acknowledgments, SeqAuth, access
 * messages and beacons, many of which are samples of the standards; of those that give several keys it takes the ones that give one alone, and of
 * messages that one of several keys opens, it tries these in their order. Rows that the program of that crate refuses as it reads them are left out. */
#include "meshnode.h"

#include <stdio.h>
#include <stdlib.h>
#include <string.h>

enum { WORDS = 24, OCTETS = 512 };

/* the octets of a word of hexadecimal digits; `-` has none */
static meshnode_size octets_of(const char *word, uint8_t *octets) {
    meshnode_size count = 0;
    unsigned octet;
    for (; word[0] != '\0' && word[0] != '-' && sscanf(word, "%2x", &octet) == 1; word += 2)
        octets[count++] = (uint8_t)octet;
    return count;
}

/* octets as the rows write them */
static void put(char *text, const uint8_t *octets, meshnode_size count) {
    strcat(text, " ");
    if (count == 0)
        strcat(text, "-");
    for (meshnode_size i = 0; i < count; i++)
        sprintf(text + strlen(text), "%02x", octets[i]);
}

static uint32_t number(const char *word) { return (uint32_t)strtoul(word, NULL, 16); }

/* a number of `count` octets, and a flag, as the rows write them */
static void put_number(char *text, uint32_t value, meshnode_size count) {
    uint8_t octets[4] = {(uint8_t)(value >> 24), (uint8_t)(value >> 16), (uint8_t)(value >> 8), (uint8_t)value};
    put(text, octets + 4 - count, count);
}

static void put_flag(char *text, bool flag) { strcat(text, flag ? " 1" : " 0"); }

/* `lower CTL TRANSPORT-PDU`: the kind, the fields, and the octets as they are written again */
static void lower_row(bool ctl, const uint8_t *tpdu, meshnode_size count, char *text) {
    static const char *const kinds[] = {" access", " accesspart", " control", " controlpart"};
    struct meshnode_lower head = {0};
    uint8_t octets[15], again[16];
    meshnode_size size, written;
    if (meshnode_lower_read(ctl, tpdu, count, &head, octets, 15, &size) != MESHNODE_OK) {
        strcpy(text, " malformed");
        return;
    }
    strcpy(text, kinds[2 * head.ctl + head.seg]);
    if (head.ctl)
        put_number(text, head.opcode, 1);
    else {
        put_flag(text, head.akf);
        put_number(text, head.aid, 1);
    }
    if (head.seg) {
        if (!head.ctl)
            put_flag(text, head.szmic);
        put_number(text, head.seq_zero, 2);
        put_number(text, head.seg_o, 1);
        put_number(text, head.seg_n, 1);
    }
    put(text, octets, size);
    if (meshnode_lower_write(&head, octets, size, again, 16, &written) == MESHNODE_OK)
        put(text, again, written);
}

/* `control 00 PARAMETERS`: what a Segment Acknowledgment says, and its octets as they are written again */
static void acknowledgment_row(const uint8_t *params, meshnode_size count, char *text) {
    struct meshnode_acknowledgment said = {0};
    uint8_t again[7] = {0};
    if (meshnode_acknowledgment_read(params, count, &said) != MESHNODE_OK) {
        strcpy(text, " other");
        return;
    }
    strcpy(text, " acknowledgment");
    put_flag(text, said.obo);
    put_number(text, said.seq_zero, 2);
    put_number(text, said.block_ack, 4);
    if (meshnode_acknowledgment_write(&said, again + 1, 6) == MESHNODE_OK)
        put(text, again, 7);
}

/* `access` and `opened`: IV, SEQ, SRC, DST, SZMIC and at most one label, then the octets and the key or keys */
static void access_row(char **w, char *text) {
    static uint8_t octets[OCTETS], made[OCTETS];
    uint8_t label[16], key[16];
    struct meshnode_message message = {number(w[1]), number(w[2]), (uint16_t)number(w[3]), (uint16_t)number(w[4]), w[5][0] == '1'};
    bool labelled = number(w[6]) == 1;
    char **rest = w + 7 + labelled;
    meshnode_size labels = labelled ? octets_of(w[7], label) : 0, mic = message.long_mic ? 8 : 4, count = octets_of(rest[0], octets);
    if (strcmp(w[0], "access") == 0) {
        octets_of(rest[2], key);
        if (meshnode_access_seal(strcmp(rest[1], "dev") == 0, key, 16, &message, label, labels, octets, count, made, count + mic) == MESHNODE_OK)
            put(text, made, count + mic);
        return;
    }
    strcpy(text, " nokey");
    for (uint32_t i = 0; i < number(rest[1]); i++) {
        octets_of(rest[3 + 2 * i], key);
        meshnode_size room = count > mic ? count - mic : 1;
        if (meshnode_access_open(strcmp(rest[2 + 2 * i], "dev") == 0, key, 16, &message, label, labels, octets, count, made, room) == MESHNODE_OK) {
            text[0] = '\0';
            put_number(text, i, 4);
            put(text, made, room);
            return;
        }
    }
}

/* `read BEACON 01 INDEX PHASE KEY -`: the index, whether the key is the new one, what the beacon says */
static void beacon_row(char **w, const uint8_t *beacon, meshnode_size count, char *text) {
    uint8_t key[16], flags = 0;
    uint32_t iv = 0;
    octets_of(w[5], key);
    if (meshnode_beacon_open(key, 16, beacon, count, &flags, &iv) != MESHNODE_OK) {
        strcpy(text, " unread");
        return;
    }
    put_number(text, number(w[3]), 2);
    put_flag(text, false);
    put_flag(text, flags & 1);
    put_flag(text, flags >> 1 & 1);
    put_number(text, iv, 4);
}

/* rows of the transport layers and of beacons that are read; 0 where a row is none */
static int transport_answer(char **w, uint8_t in[WORDS][OCTETS], const meshnode_size *n, char *text) {
    uint32_t auth = 0;
    if (strcmp(w[0], "lower") == 0)
        lower_row(w[1][0] == '1', in[2], n[2], text);
    else if (strcmp(w[0], "control") == 0 && strcmp(w[1], "00") == 0)
        acknowledgment_row(in[2], n[2], text);
    else if (strcmp(w[0], "seqauth") == 0) {
        if (meshnode_seq_auth(number(w[1]), (uint16_t)number(w[2]), &auth) == MESHNODE_OK)
            put_number(text, auth, 3);
        else
            strcpy(text, " none");
    } else if (strcmp(w[0], "access") == 0 || strcmp(w[0], "opened") == 0)
        access_row(w, text);
    else if (strcmp(w[0], "read") == 0 && strcmp(w[2], "01") == 0 && strcmp(w[6], "-") == 0)
        beacon_row(w, in[1], n[1], text);
    else
        return 0;
    return 1;
}

/* what a row asks for, as text; 0 where it asks for something else */
static int answer(char **w, char *text) {
    static uint8_t in[WORDS][OCTETS];
    meshnode_size n[WORDS] = {0};
    uint8_t out[16], mic[8], id[8], beacon[22], pdu[29], small;
    struct meshnode_credentials by;
    uint16_t dst;
    for (int i = 1; i < WORDS && w[i] != NULL; i++)
        n[i] = octets_of(w[i], in[i]);
    text[0] = '\0';
    if (strcmp(w[0], "cmac") == 0) {
        if (meshnode_cmac(in[1], n[1], in[2], n[2], out, 16) == MESHNODE_OK)
            put(text, out, 16);
    } else if (strcmp(w[0], "seal") == 0) {
        meshnode_size m = w[1][0] == '1' ? 8 : 4;
        if (meshnode_ccm_seal(in[2], n[2], in[3], n[3], in[4], n[4], in[5], n[5], mic, m) == MESHNODE_OK) {
            put(text, in[5], n[5]);
            put(text, mic, m);
        }
    } else if (strcmp(w[0], "open") == 0) {
        uint32_t r = meshnode_ccm_open(in[1], n[1], in[2], n[2], in[3], n[3], in[4], n[4], in[5], n[5]);
        strcpy(text, r == MESHNODE_OK ? " opened" : r == MESHNODE_UNREAD ? " badmic" : " a refusal");
        if (r != MESHNODE_LENGTH)
            put(text, in[4], n[4]);
    } else if (strcmp(w[0], "s1") == 0) {
        if (meshnode_s1(in[1], n[1], out, 16) == MESHNODE_OK)
            put(text, out, 16);
    } else if (strcmp(w[0], "k1") == 0) {
        if (meshnode_k1(in[1], n[1], in[2], n[2], in[3], n[3], out, 16) == MESHNODE_OK)
            put(text, out, 16);
    } else if (strcmp(w[0], "k2") == 0) {
        if (meshnode_k2(in[1], n[1], in[2], n[2], &by) == MESHNODE_OK) {
            put(text, &by.nid, 1);
            put(text, by.encryption, 16);
            put(text, by.privacy, 16);
        } else
            strcpy(text, " a refusal");
    } else if (strcmp(w[0], "k3") == 0) {
        if (meshnode_k3(in[1], n[1], id, 8) == MESHNODE_OK)
            put(text, id, 8);
    } else if (strcmp(w[0], "k4") == 0) {
        if (meshnode_k4(in[1], n[1], &small) == MESHNODE_OK)
            put(text, &small, 1);
    } else if (strcmp(w[0], "address") == 0) {
        if (meshnode_virtual_address(in[1], n[1], &dst) == MESHNODE_OK)
            put(text, (uint8_t[]){(uint8_t)(dst >> 8), (uint8_t)dst}, 2);
    } else if (strcmp(w[0], "beacon") == 0) {
        if (meshnode_beacon(in[1], n[1], in[2][0], number(w[3]), beacon, 22) == MESHNODE_OK)
            put(text, beacon, 22);
    } else if (strcmp(w[0], "network") == 0) {
        struct meshnode_head head = {number(w[2]), number(w[5]), (uint16_t)number(w[6]), (uint16_t)number(w[7]), w[3][0] == '1', in[4][0]};
        struct meshnode_head heard = {0};
        meshnode_size size, tpdu_size;
        uint8_t tpdu[16];
        meshnode_k2(in[1], n[1], (uint8_t[]){0}, 1, &by);
        if (meshnode_net_seal(&by, &head, in[8], n[8], pdu, 29, &size) == MESHNODE_OK) {
            put(text, pdu, size);
            /* and it opens as what it was sealed from */
            if (meshnode_net_open(&by, head.iv, pdu, size, &heard, tpdu, 16, &tpdu_size) != MESHNODE_OK
                || heard.iv != head.iv || heard.seq != head.seq || heard.src != head.src || heard.dst != head.dst || heard.ctl != head.ctl
                || heard.ttl != head.ttl || tpdu_size != n[8] || memcmp(tpdu, in[8], tpdu_size) != 0)
                strcpy(text, " it doesn't open");
        } else
            strcpy(text, " a refusal");
    } else
        return transport_answer(w, in, n, text);
    return 1;
}

/* the same of the transport layers */
static int refuses_transport(void) {
    uint8_t key[16] = {0}, octets[16] = {7}, payload[4] = {7}, upper[8] = {7}, flags = 7;
    struct meshnode_lower head = {.seg = true, .aid = 1, .seg_n = 1}, same = head;
    struct meshnode_acknowledgment said = {false, 0x2000, 0};
    struct meshnode_message message = {0, 0x1000000, 1, 2, false};
    meshnode_size size = 5;
    uint32_t number = 5;
    return meshnode_lower_write(&head, payload, 4, octets, 16, &size) == MESHNODE_LENGTH
        && meshnode_lower_write(&head, key, 12, octets, 15, &size) == MESHNODE_LENGTH
        && (head.seg_n = 0, meshnode_lower_write(&head, payload, 4, octets, 16, &size) == MESHNODE_RANGE)
        && (head.seg_n = 1, meshnode_lower_read(false, payload, 4, &head, octets, 15, &size) == MESHNODE_UNREAD)
        && meshnode_lower_read(false, payload, 4, &head, octets, 16, &size) == MESHNODE_LENGTH && memcmp(&head, &same, sizeof head) == 0
        && meshnode_acknowledgment_write(&said, octets, 6) == MESHNODE_RANGE && meshnode_acknowledgment_read(octets, 5, &said) == MESHNODE_LENGTH
        && meshnode_seq_auth(0, 1, &number) == MESHNODE_UNREAD
        && meshnode_access_seal(true, key, 16, &message, key, 0, payload, 4, upper, 8) == MESHNODE_RANGE
        && meshnode_access_seal(true, key, 16, &message, key, 15, payload, 4, upper, 8) == MESHNODE_LENGTH
        && meshnode_access_open(true, key, 16, &message, key, 0, upper, 8, payload, 4) == MESHNODE_UNREAD
        && meshnode_access_open(true, key, 16, &message, key, 0, upper, 8, payload, 3) == MESHNODE_LENGTH
        && meshnode_beacon_open(key, 16, octets, 16, &flags, &number) == MESHNODE_UNREAD
        && meshnode_beacon_open(key, 15, octets, 16, &flags, &number) == MESHNODE_LENGTH
        && octets[0] == 7 && payload[0] == 7 && upper[0] == 7 && flags == 7 && size == 5 && number == 5;
}

/* whether calls that are to be refused are, and leave what they were given */
static int refuses(void) {
    uint8_t key[16] = {0}, mac[16] = {7}, text[4] = {1, 2, 3, 4}, mic[8] = {0}, pdu[29] = {7}, tpdu[16] = {7};
    struct meshnode_head head = {0, 1, 1, 2, false, 128}, same = head;
    struct meshnode_credentials by = {0};
    meshnode_size size = 5;
    return meshnode_cmac(key, 15, text, 4, mac, 16) == MESHNODE_LENGTH && meshnode_cmac(key, 16, text, 4, mac, 15) == MESHNODE_LENGTH
        && meshnode_ccm_seal(key, 16, key, 13, key, 0, text, 4, mic, 5) == MESHNODE_LENGTH && text[0] == 1
        && meshnode_net_seal(&by, &head, text, 4, pdu, 29, &size) == MESHNODE_RANGE
        && meshnode_net_open(&by, 0, pdu, 29, &head, tpdu, 16, &size) == MESHNODE_UNREAD
        && memcmp(&head, &same, sizeof head) == 0 && mac[0] == 7 && pdu[0] == 7 && tpdu[0] == 7 && size == 5
        && meshnode_ccm_open(key, 16, key, 13, key, 0, text, 4, mic, 8) == MESHNODE_UNREAD && text[0] == 0;
}

int main(int argc, char **argv) {
    static char line[8192], text[8192];
    FILE *file = argc == 2 ? fopen(argv[1], "r") : NULL;
    int rows = 0, wrong = 0;
    if (file == NULL)
        return 2;
    while (fgets(line, sizeof line, file) != NULL) {
        char *words[WORDS] = {0};
        char *wanted = strstr(line, " = ");
        int count = 0;
        if (wanted == NULL || line[0] == '#' || strcmp(wanted, " = refused\n") == 0)
            continue;
        *wanted = '\0';
        wanted += 2;
        wanted[strcspn(wanted, "\n")] = '\0';
        for (char *word = strtok(line, " "); word != NULL && count < WORDS; word = strtok(NULL, " "))
            words[count++] = word;
        if (count == 0 || !answer(words, text))
            continue;
        rows++;
        if (strcmp(text, wanted) != 0) {
            wrong++;
            printf("%s ..: %s, and not%s\n", words[0], wanted, text);
        }
    }
    fclose(file);
    if (!refuses() || !refuses_transport()) {
        wrong++;
        puts("a call that is to be refused");
    }
    printf("%d rows, %d wrong\n", rows, wrong);
    return wrong != 0 || rows == 0;
}
