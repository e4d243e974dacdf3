/* Prints of calls of the library, over samples, how many instructions each takes and how deep its stack goes: for the board mps2-an386, whose
 * timer has a tick in 40 instructions where the emulator counts a nanosecond for each. */
#include "meshnode.h"

#include <stdio.h>
#include <string.h>

enum { TIMES = 200, TICK = 40, ROOM = 16384, BESIDE = 256, PAINT = 0xa5, COUNTS = 1 };

struct timer {
    volatile uint32_t control, left, from;
};
static struct timer *const timer = (struct timer *)0x40000000;

static uint8_t key[16] = {1, 2, 3}, privacy[16] = {4, 5}, nonce[13] = {6}, text[20] = "a text of 20 octets", sealed[20], mic[8], mac[16];
static uint8_t tpdu[16] = "sixteen octets..", heard[16], pdu[29], beacon[22], payload[11] = "11 octets..", upper[15], identity[8];
static uint8_t aid, flags;
static const struct meshnode_credentials by = {5, {1, 2, 3}, {4, 5}};
static struct meshnode_credentials derived;
static struct meshnode_head head = {0x12345678, 1, 0x1201, 3, false, 7}, opened;
static struct meshnode_lower lower = {.akf = true, .aid = 0x26};
static struct meshnode_message message = {0x12345678, 1, 0x1201, 3, false};
static meshnode_size size;
static uint16_t address;
static uint32_t iv;

static uint32_t nothing(void) { return MESHNODE_OK; }
static uint32_t ccm_seal(void) { return meshnode_ccm_seal(key, 16, nonce, 13, nonce, 0, sealed, 20, mic, 8); }
static uint32_t ccm_open(void) { return ccm_seal() | meshnode_ccm_open(key, 16, nonce, 13, nonce, 0, sealed, 20, mic, 8); }
static uint32_t cmac(void) { return meshnode_cmac(key, 16, text, 16, mac, 16); }
static uint32_t s1(void) { return meshnode_s1(text, 4, mac, 16); }
static uint32_t k1(void) { return meshnode_k1(key, 16, privacy, 16, text, 4, mac, 16); }
static uint32_t k2(void) { return meshnode_k2(key, 16, (const uint8_t[]){0}, 1, &derived); }
static uint32_t k3(void) { return meshnode_k3(key, 16, identity, 8); }
static uint32_t k4(void) { return meshnode_k4(key, 16, &aid); }
static uint32_t virtual_address(void) { return meshnode_virtual_address(key, 16, &address); }
static uint32_t access_seal(void) { return meshnode_access_seal(false, key, 16, &message, key, 0, payload, 11, upper, 15); }
static uint32_t access_open(void) { return meshnode_access_open(false, key, 16, &message, key, 0, upper, 15, payload, 11); }
static uint32_t lower_write(void) { return meshnode_lower_write(&lower, upper, 15, tpdu, 16, &size); }
static uint32_t lower_read(void) { return meshnode_lower_read(false, tpdu, 16, &lower, upper, 15, &size); }
static uint32_t net_seal(void) { return meshnode_net_seal(&by, &head, tpdu, 16, pdu, 29, &size); }
static uint32_t net_open(void) { return meshnode_net_open(&by, head.iv, pdu, 29, &opened, heard, 16, &size); }
static uint32_t beacon_made(void) { return meshnode_beacon(key, 16, 0, head.iv, beacon, 22); }
static uint32_t beacon_open(void) { return meshnode_beacon_open(key, 16, beacon, 22, &flags, &iv); }

/* In an order in which each has what it opens; what a call takes besides itself stands behind it. */
static const struct call {
    const char *name;
    uint32_t (*call)(void), (*beside)(void);
} calls[] = {
    {"ccm_seal", ccm_seal, nothing}, {"ccm_open", ccm_open, ccm_seal}, {"cmac", cmac, nothing}, {"s1", s1, nothing}, {"k1", k1, nothing},
    {"k2", k2, nothing}, {"k3", k3, nothing}, {"k4", k4, nothing}, {"virtual_address", virtual_address, nothing},
    {"access_seal", access_seal, nothing}, {"access_open", access_open, nothing}, {"lower_write", lower_write, nothing},
    {"lower_read", lower_read, nothing}, {"net_seal", net_seal, nothing}, {"net_open", net_open, nothing},
    {"beacon", beacon_made, nothing}, {"beacon_open", beacon_open, nothing}};

/* the ticks of so many calls */
static uint32_t ticks(uint32_t (*call)(void)) {
    uint32_t begin = timer->left;
    for (int i = 0; i < TIMES; i++) call();
    return begin - timer->left;
}

/* the octets of stack of a call, below this function's own */
static __attribute__((noinline)) uint32_t stack(uint32_t (*call)(void), uint32_t *answer) {
    volatile uint8_t *end = (volatile uint8_t *)__builtin_frame_address(0) - BESIDE;
    for (uint32_t i = 1; i < ROOM; i++) end[-(int32_t)i] = PAINT;
    *answer = call();
    uint32_t deep = ROOM - 1;
    while (deep > 0 && end[-(int32_t)deep] == PAINT) deep--;
    return deep + BESIDE;
}

int main(void) {
    int wrong = 0;
    timer->from = timer->left = UINT32_MAX;
    timer->control = COUNTS;
    for (size_t i = 0; i < sizeof calls / sizeof *calls; i++) {
        uint32_t answer, deep = stack(calls[i].call, &answer);
        double taken = ticks(calls[i].call) - (double)ticks(calls[i].beside);
        printf("%s %.0f %lu\n", calls[i].name, taken * TICK / TIMES, (unsigned long)deep);
        wrong += answer != MESHNODE_OK;
    }
    return wrong != 0;
}
