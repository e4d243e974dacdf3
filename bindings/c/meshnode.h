/* What a program in C can call of meshnode. bindings/header writes this file from crates/meshnode_c and
 * crates/node_handle: don't edit it.
 *
 * bindings/README.md says how to build with it, and what a caller promises. A pointer is to as many octets as the length behind it, and isn't
 * NULL where that is 0 either. No octet that a call writes is given to it a second time. A call that is refused leaves all that it was given as
 * it was, but where its comment says that it tells something, and for the text of meshnode_ccm_open, which is zeros where the MIC is wrong.
 * A node's calls and meshnode_audit take memory of malloc, no other call does; bindings/README.md says how much stack.
 *
 * What a call answers where it isn't MESHNODE_OK (bindings/README.md says what to do then, of a node):
 *   beacon, ccm_seal, cmac, s1, k1, k2, k3, k4, virtual_address, acknowledgment_read     LENGTH
 *   beacon_open, ccm_open, lower_read, net_open, access_open                             LENGTH, UNREAD
 *   lower_write, acknowledgment_write, net_seal, access_seal                             LENGTH, RANGE
 *   seq_auth                                                                             UNREAD
 *   audit                                                                                LENGTH, NOT_REPORT, MEMORY
 *   node_open       HELD; LENGTH, where the image hasn't 65,536 octets or `text` not 35; NO_NODE, WAS_RESET, MEMORY
 *   node_line       EMPTY, NOTHING, WRONG, WAITING, OVER, MEMORY, LOST
 *   node_write      EMPTY, NOTHING, LENGTH
 *   node_report     EMPTY, WAITING, LENGTH
 *   node_due        EMPTY, OVER
 *   node_close      LENGTH, EMPTY */
#ifndef MESHNODE_H
#define MESHNODE_H

#include <stdbool.h>
#include <stddef.h>
#include <stdint.h>

/* A number of octets. It has 64 bits, also where a pointer has 32. */
#if SIZE_MAX == UINT64_MAX
typedef size_t meshnode_size;
#else
typedef uint64_t meshnode_size;
#endif

#ifdef __cplusplus
extern "C" {
#endif

/* All went well. */
#define MESHNODE_OK 0u

/* A slice hasn't the length that the call asks for. Nothing was written, but `size` where the call says that it tells how many octets it needs. */
#define MESHNODE_LENGTH 1u

/* A number is out of its range. Nothing was written. */
#define MESHNODE_RANGE 2u

/* The octets are none of what was asked for, or none under this key. */
#define MESHNODE_UNREAD 3u

/* The text is none that can be audited. */
#define MESHNODE_NOT_REPORT 4u

/* There was no memory, and nothing happened: the call may be made again. */
#define MESHNODE_MEMORY 5u

/* The struct holds no node. */
#define MESHNODE_EMPTY 6u

/* The struct holds a node already. */
#define MESHNODE_HELD 7u

/* The image holds no node that can be run: it is erased, it is damaged, or its records say what no node has. */
#define MESHNODE_NO_NODE 8u

/* There was a Node Reset: it can't be run any more. Another image has to be made, of a node with another address and other keys. */
#define MESHNODE_WAS_RESET 9u

/* There is nothing: the line is empty or a comment, or no write is left. */
#define MESHNODE_NOTHING 10u

/* The line is wrong. */
#define MESHNODE_WRONG 11u

/* Something of the phase before isn't taken yet. */
#define MESHNODE_WAITING 12u

/* The node takes no line more: as the code stands, memory ran out as a write was noted, in a line that answered `MESHNODE_OK` and whose writes and report
 * are to be taken, or it was lost. It is closed, and opened anew from the image that is stored. */
#define MESHNODE_OVER 13u

/* Memory ran out within the phase: the node was lost, and nothing of the phase is left. To the image the phase never came. It is closed, and opened
 * anew from the image that is stored. */
#define MESHNODE_LOST 14u

/* Audits a text: at most 16 lines `key NET`, and then lines of reports, as `meshnoded run --hex` writes them, at most 4,194,304 octets. The line of the
 * verdict is put into the front of `verdict`, and `size` tells how many octets it has: at most 28. It is `sound N`, `reuse A B`, `twice A B` or
 * `bad B`, and an LF. Where the text is no such input it is `MESHNODE_NOT_REPORT`, and `line` tells the first line that isn't of the form. */
uint32_t meshnode_audit(const uint8_t *text, meshnode_size text_length, uint8_t *verdict, meshnode_size verdict_length, meshnode_size *size, uint32_t *line);

/* The 22 octets of the Secure Network beacon of a network key of 16 octets. Of the flags bit 0 is Key Refresh and bit 1 is IV Update; the others go
 * into it as they are. */
uint32_t meshnode_beacon(const uint8_t *key, meshnode_size key_length, uint8_t flags, uint32_t iv, uint8_t *beacon, meshnode_size beacon_length);

/* Authenticates a Secure Network beacon under a network key of 16 octets, and reads its flags, of which bit 0 is Key Refresh and bit 1 is IV Update,
 * and its IV Index. Its Network ID is what `meshnode_k3` derives of the key. `MESHNODE_UNREAD` where it is no beacon of this key. */
uint32_t meshnode_beacon_open(const uint8_t *key, meshnode_size key_length, const uint8_t *beacon, meshnode_size beacon_length, uint8_t *flags, uint32_t *iv);

/* Seals a text in place and writes its MIC: AES-CCM under a key of 16 octets, with a nonce of 13, fewer than 65,280 octets of additional data, a
 * text of fewer than 65,536, and a MIC of 4 or 8. */
uint32_t meshnode_ccm_seal(const uint8_t *key, meshnode_size key_length, const uint8_t *nonce, meshnode_size nonce_length, const uint8_t *additional, meshnode_size additional_length, uint8_t *text, meshnode_size text_length, uint8_t *mic, meshnode_size mic_length);

/* Opens a sealed text in place, if `mic` is its MIC: else it is `MESHNODE_UNREAD`, and the text is zeros. The lengths are those of
 * `meshnode_ccm_seal`. */
uint32_t meshnode_ccm_open(const uint8_t *key, meshnode_size key_length, const uint8_t *nonce, meshnode_size nonce_length, const uint8_t *additional, meshnode_size additional_length, uint8_t *text, meshnode_size text_length, const uint8_t *mic, meshnode_size mic_length);

/* AES-CMAC of a message of any length: 16 octets, under a key of 16. */
uint32_t meshnode_cmac(const uint8_t *key, meshnode_size key_length, const uint8_t *message, meshnode_size message_length, uint8_t *mac, meshnode_size mac_length);

/* Credentials: what network PDUs are sealed and opened with, as `meshnode_k2` derives it of a network key. */
struct meshnode_credentials {
    /* NID, below 128. */
    uint8_t nid;
    /* The EncryptionKey. */
    uint8_t encryption[16];
    /* The PrivacyKey. */
    uint8_t privacy[16];
};

/* s1: a salt of 16 octets from a text of any length. */
uint32_t meshnode_s1(const uint8_t *message, meshnode_size message_length, uint8_t *salt, meshnode_size salt_length);

/* k1: a key of 16 octets from key material, a salt of 16 octets and a text. */
uint32_t meshnode_k1(const uint8_t *n, meshnode_size n_length, const uint8_t *salt, meshnode_size salt_length, const uint8_t *p, meshnode_size p_length, uint8_t *key, meshnode_size key_length);

/* k2: credentials from a network key of 16 octets and P, 1 to 32 octets: 00 for the master credentials. */
uint32_t meshnode_k2(const uint8_t *n, meshnode_size n_length, const uint8_t *p, meshnode_size p_length, struct meshnode_credentials *to);

/* k3: the Network ID, 8 octets, of a network key of 16. */
uint32_t meshnode_k3(const uint8_t *n, meshnode_size n_length, uint8_t *id, meshnode_size id_length);

/* k4: the AID, 6 bits, of an application key of 16 octets. */
uint32_t meshnode_k4(const uint8_t *n, meshnode_size n_length, uint8_t *aid);

/* The virtual address, 8000 to bfff, of a label of 16 octets. */
uint32_t meshnode_virtual_address(const uint8_t *label, meshnode_size label_length, uint16_t *dst);

/* The fields of a lower transport PDU but for its octets. Of a PDU that was read those that its kind hasn't are 0; of one that is written they
 * aren't looked at. */
struct meshnode_lower {
    /* Whether it is of a control message. */
    bool ctl;
    /* SEG: whether it is a segment. */
    bool seg;
    /* AKF, of an access message: whether an application key sealed it; else the device key. */
    bool akf;
    /* SZMIC, of a segment of an access message: whether the TransMIC has 8 octets; else 4. */
    bool szmic;
    /* AID, below 64, of an access message: 0 with the device key. */
    uint8_t aid;
    /* The opcode, below 128, of a control message. */
    uint8_t opcode;
    /* SegO, of a segment: which it is, from 0 to SegN. */
    uint8_t seg_o;
    /* SegN, below 32, of a segment: the number of the last one. */
    uint8_t seg_n;
    /* SeqZero, below 2^13, of a segment: the low bits of SeqAuth. */
    uint16_t seq_zero;
};

/* What a Segment Acknowledgment says. */
struct meshnode_acknowledgment {
    /* OBO: whether a friend acknowledges on behalf of its Low Power node. */
    bool obo;
    /* SeqZero, below 2^13. */
    uint16_t seq_zero;
    /* BlockAck: bit n is 1 where segment n was received. */
    uint32_t block_ack;
};

/* The octets of the lower transport PDU of these fields: at most 16, in the front of `tpdu`, whose length is 16; `size` tells how many. An
 * unsegmented access message has 5 to 15 octets, its upper transport PDU; an unsegmented control message 0 to 11, its parameters. A segment of
 * an access message has 12 and of a control message 8, the last one 1 to so many. Where a length and a number are wrong it is `MESHNODE_LENGTH`. */
uint32_t meshnode_lower_write(const struct meshnode_lower *head, const uint8_t *octets, meshnode_size octets_length, uint8_t *tpdu, meshnode_size tpdu_length, meshnode_size *size);

/* Reads the transport PDU of a network PDU with this CTL. Its octets are put into the front of `octets`, whose length is 15, and `size` tells
 * how many. Reserved bits, and AID with the device key, are read as anything. `MESHNODE_UNREAD` where no PDU has these octets. */
uint32_t meshnode_lower_read(bool ctl, const uint8_t *tpdu, meshnode_size tpdu_length, struct meshnode_lower *head, uint8_t *octets, meshnode_size octets_length, meshnode_size *size);

/* The 6 octets of parameters of a Segment Acknowledgment, which is a control message with opcode 00. */
uint32_t meshnode_acknowledgment_write(const struct meshnode_acknowledgment *said, uint8_t *params, meshnode_size params_length);

/* Reads the 6 octets of parameters of a Segment Acknowledgment. The two bits before BlockAck are reserved, and read as anything. */
uint32_t meshnode_acknowledgment_read(const uint8_t *params, meshnode_size params_length, struct meshnode_acknowledgment *said);

/* SEQ of SeqAuth, for a segment that came with this SEQ: the greatest number up to it whose low 13 bits are SeqZero. Its IV Index is that of the
 * segment. Both numbers may be any. `MESHNODE_UNREAD` where there is no such number. */
uint32_t meshnode_seq_auth(uint32_t seq, uint16_t seq_zero, uint32_t *auth);

/* The fields of a network PDU but for its transport PDU. */
struct meshnode_head {
    /* The IV Index. */
    uint32_t iv;
    /* SEQ, below 2^24. */
    uint32_t seq;
    /* SRC. */
    uint16_t src;
    /* DST. */
    uint16_t dst;
    /* Whether it is a control message. */
    bool ctl;
    /* TTL, below 128. */
    uint8_t ttl;
};

/* The octets of the network PDU of these fields: at most 29, in the front of `pdu`, whose length is 29; `size` tells how many. The transport PDU
 * has 1 to 16 octets, or 1 to 12 in a control message. Where a length and a number are wrong it is `MESHNODE_LENGTH`. */
uint32_t meshnode_net_seal(const struct meshnode_credentials *by, const struct meshnode_head *head, const uint8_t *tpdu, meshnode_size tpdu_length, uint8_t *pdu, meshnode_size pdu_length, meshnode_size *size);

/* Opens a network PDU, heard by a node whose IV Index is `current`: it may be under this one or the one before. The transport PDU is put into the
 * front of `tpdu`, whose length is 16, and `size` tells how many. `MESHNODE_UNREAD` where it is none under these credentials, as under those
 * whose NID is 128 or more. */
uint32_t meshnode_net_open(const struct meshnode_credentials *by, uint32_t current, const uint8_t *pdu, meshnode_size pdu_length, struct meshnode_head *head, uint8_t *tpdu, meshnode_size tpdu_length, meshnode_size *size);

/* A node, or none: where all its octets are 0 it holds none. Only these calls write it, and a copy of it isn't used. */
struct meshnode {
    uint64_t at;
};

/* Opens a node over an image of 65,536 octets: what it holds is checked. The first line of its life, `life 1` and so on with its LF, is put into the
 * front of `text`, which has at least 35 octets, and `size` tells how many it has. The image is only read. Writes are left by the opening of an
 * image of format 01 alone: they are made durable before the line leaves. */
uint32_t meshnode_node_open(struct meshnode *node, const uint8_t *image, meshnode_size image_length, uint8_t *text, meshnode_size text_length, meshnode_size *size);

/* Gives the node a line of what happens, without its LF, as `meshnoded` with one bearer reads it: `net`, `bcn`, `send`, `raw`, `tick`, `peer`, `talk`
 * and so on, with or without `b0` in front. It is done as one phase: its writes and its report are there to be taken, all before the next line.
 * Where the line is wrong `rule` tells by which rule it fails first: 1, 3, 4 or 5. */
uint32_t meshnode_node_line(struct meshnode *node, const uint8_t *line, meshnode_size line_length, uint32_t *rule);

/* Takes the next write, in their order. `erased` tells whether it is an erase of a sector: then the 4,096 octets from `at` on, the sector's first,
 * are to become ff, `size` is 4,096, and `octets` is as it was, however long it is. Else the octets are put into the front of `octets`, `size`
 * tells how many, and `at` the offset in the image from which on they are to stand. Made one after another on the image of before, the writes
 * give the image that the node reads now; the caller makes each durable before the next, and all before the report leaves. A write has an octet at
 * least and lies within one sector; one that is no erase only clears bits. Where `octets` is too short for one `size` tells how many it must have,
 * and the write stays: 4,096 always do, and 31 as the code stands. */
uint32_t meshnode_node_write(struct meshnode *node, uint32_t *at, uint8_t *octets, meshnode_size octets_length, meshnode_size *size, bool *erased);

/* Takes the report of the last phase, which may be no octet: its lines as `meshnoded --hex` writes them, each with its LF, are put into the front of
 * `text`, and `size` tells how many octets they have. While a write is left it is `MESHNODE_WAITING`. Where `text` is too short `size` tells how many
 * octets it must have, and the report stays. */
uint32_t meshnode_node_report(struct meshnode *node, uint8_t *text, meshnode_size text_length, meshnode_size *size);

/* Tells in how many ticks of 10 ms behind the last line `tick` something of the node is due: an event of fewer ticks stores nothing and has no jobs. It
 * may be 0, and as the code stands it is 2^32 - 1 where nothing is due any more; a line `tick` takes 1 to 100,000,000. `MESHNODE_OVER` where the node takes
 * no line more. */
uint32_t meshnode_node_due(struct meshnode *node, uint32_t *ticks);

/* Ends the life of the node, and frees it: the struct holds none then. Where the life ends in order its last line, `end` and an LF, is put into the
 * front of `text`, which has at least 4 octets; `size` tells how many it has, and is 0 where a write or the report was left, the flash failed, or
 * the node was lost. */
uint32_t meshnode_node_close(struct meshnode *node, uint8_t *text, meshnode_size text_length, meshnode_size *size);

/* What an access message is sealed with besides its key. */
struct meshnode_message {
    /* The IV Index of SeqAuth. */
    uint32_t iv;
    /* The SEQ of SeqAuth, below 2^24: that of the message, or of its first segment. */
    uint32_t seq;
    /* SRC. */
    uint16_t src;
    /* DST. */
    uint16_t dst;
    /* Whether the TransMIC has 8 octets; else 4. */
    bool long_mic;
};

/* Seals an access payload of 1 octet or more: the octets of its upper transport PDU, as many as the payload has and 4 or 8 for its TransMIC, at most
 * 384. The key has 16 octets, and is the device key or an application key. The label of a virtual DST has 16 octets; else there are 0. Where a length and a
 * number are wrong it is `MESHNODE_LENGTH`. */
uint32_t meshnode_access_seal(bool device, const uint8_t *key, meshnode_size key_length, const struct meshnode_message *message, const uint8_t *label, meshnode_size label_length, const uint8_t *payload, meshnode_size payload_length, uint8_t *upper, meshnode_size upper_length);

/* Opens the octets of an upper transport PDU, sealed as `meshnode_access_seal` says: `payload` has as many octets as they are without the
 * TransMIC, no more. `MESHNODE_UNREAD` where they don't open under this key with these fields. Of the SEQ the low 24 bits count. */
uint32_t meshnode_access_open(bool device, const uint8_t *key, meshnode_size key_length, const struct meshnode_message *message, const uint8_t *label, meshnode_size label_length, const uint8_t *upper, meshnode_size upper_length, uint8_t *payload, meshnode_size payload_length);

#ifdef __cplusplus
}
#endif

#endif
