// The peer over OpenSSL: so many blocks, or seals or openings of network PDUs, and nothing else, so that an instruction counter can look.
// main CALL COUNT. `block` and `seal` take the instructions for AES where the processor has them, `table` OpenSSL's code without them.
// With no COUNT it prints the nanoseconds of a call, the least of many short windows; `check` prints the PDU of number 1.
#define OPENSSL_SUPPRESS_DEPRECATED
#include <openssl/aes.h>
#include <openssl/evp.h>
#include <stdint.h>
#include <stdio.h>
#include <stdlib.h>
#include <string.h>
#include <time.h>

static EVP_CIPHER_CTX *ccm, *block_of;
static AES_KEY table;
static uint8_t pdu[28];

static void prepare(void) {
    uint8_t encryption[16], privacy[16];
    memset(encryption, 1, 16);
    memset(privacy, 2, 16);
    ccm = EVP_CIPHER_CTX_new();
    EVP_EncryptInit_ex(ccm, EVP_aes_128_ccm(), NULL, NULL, NULL);
    EVP_CIPHER_CTX_ctrl(ccm, EVP_CTRL_AEAD_SET_IVLEN, 13, NULL);
    EVP_CIPHER_CTX_ctrl(ccm, EVP_CTRL_AEAD_SET_TAG, 8, NULL);
    EVP_EncryptInit_ex(ccm, NULL, NULL, encryption, NULL);
    block_of = EVP_CIPHER_CTX_new();
    EVP_EncryptInit_ex(block_of, EVP_aes_128_ecb(), NULL, privacy, NULL);
    EVP_CIPHER_CTX_set_padding(block_of, 0);
    AES_set_encrypt_key(privacy, 128, &table);
}

// A control PDU of 11 octets of transport PDU.
static void seal(uint32_t number) {
    static const uint8_t text[13] = {0xff, 0xfd, 0x03, 0x4b, 0x50, 0x05, 0x7e, 0x40, 0, 0, 1, 0, 0};
    uint8_t nonce[13] = {0, 0x80, number >> 16, number >> 8, number, 0x12, 0x01, 0, 0, 0x12, 0x34, 0x56, 0x78};
    uint8_t random[16] = {0, 0, 0, 0, 0, 0x12, 0x34, 0x56, 0x78}, mask[16];
    int n;
    EVP_EncryptInit_ex(ccm, NULL, NULL, NULL, nonce);
    EVP_EncryptUpdate(ccm, NULL, &n, NULL, 13);
    EVP_EncryptUpdate(ccm, pdu + 7, &n, text, 13);
    EVP_EncryptFinal_ex(ccm, pdu + 20, &n);
    EVP_CIPHER_CTX_ctrl(ccm, EVP_CTRL_AEAD_GET_TAG, 8, pdu + 20);
    memcpy(random + 9, pdu + 7, 7);
    EVP_EncryptUpdate(block_of, mask, &n, random, 16);
    pdu[0] = 0x68;
    for (int i = 0; i < 6; i++) pdu[1 + i] = nonce[1 + i] ^ mask[i];
}

static void call(const char *name, uint32_t count) {
    uint8_t b[16] = {7};
    int n;
    if (!strcmp(name, "block")) {
        for (uint32_t i = 0; i < count; i++) EVP_EncryptUpdate(block_of, b, &n, b, 16);
    } else if (!strcmp(name, "table")) {
        for (uint32_t i = 0; i < count; i++) AES_encrypt(b, b, &table);
    } else if (!strcmp(name, "seal")) {
        for (uint32_t i = 0; i < count; i++) seal(i);
    } else {
        exit(2);
    }
    memcpy(pdu + 12, b, 16);
}

int main(int argc, char **argv) {
    if (argc < 2) return 2;
    prepare();
    if (argc > 2) {
        call(argv[1], strtoul(argv[2], NULL, 10));
        return pdu[27] == 256;
    }
    if (!strcmp(argv[1], "check")) {
        seal(1);
        for (int i = 0; i < 28; i++) printf("%02x", pdu[i]);
        return 0;
    }
    double least = 1e18;
    for (int i = 0; i < 3000; i++) {
        struct timespec a, b;
        clock_gettime(CLOCK_MONOTONIC, &a);
        call(argv[1], 100);
        clock_gettime(CLOCK_MONOTONIC, &b);
        double one = ((b.tv_sec - a.tv_sec) * 1e9 + (b.tv_nsec - a.tv_nsec)) / 100;
        if (one < least) least = one;
    }
    printf("%.1f\n", least);
    return pdu[27] == 256;
}
