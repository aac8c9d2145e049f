/* Boots a flash at 0x48000000 on bare aarch64 (QEMU's machine `virt`, EL1, no libc), and prints the lines of `fwu FLASH boot`.
 *
 * QEMU puts the flash there, and its length in bytes in the eight bytes before it. The board's driver is played by memory: an erase
 * and a program write to it. BOOTS boots, then one with the first replica of the metadata torn, and last the greatest depth of the
 * stack in bytes. */
#include "fwu.h"

#define FLASH ((uint8_t *)0x48000000)
#define FLASH_BYTES (*(const volatile uint64_t *)0x47fffff8)
#define UART ((volatile uint32_t *)0x09000000)
#define BOOTS 5
#define PAINT 0xA5
#define MOST_STEPS 16
#define STACK_BYTES 131072

extern uint8_t stack[STACK_BYTES]; /* of start.S */

/* The three functions of libc that the library calls. */
void *memcpy(void *to, const void *from, size_t size) {
    for (size_t i = 0; i < size; i++) ((uint8_t *)to)[i] = ((const uint8_t *)from)[i];
    return to;
}

void *memmove(void *to, const void *from, size_t size) {
    if ((uint8_t *)to < (const uint8_t *)from) return memcpy(to, from, size);
    while (size--) ((uint8_t *)to)[size] = ((const uint8_t *)from)[size];
    return to;
}

void *memset(void *to, int byte, size_t size) {
    for (size_t i = 0; i < size; i++) ((uint8_t *)to)[i] = (uint8_t)byte;
    return to;
}

static void put(const char *text) {
    while (*text) *UART = (uint8_t)*text++;
}

static void put_number(const char *name, uint64_t number) {
    char digits[21];
    int at = 20;
    digits[at] = 0;
    do digits[--at] = (char)('0' + number % 10);
    while (number /= 10);
    put(name);
    put(digits + at);
}

static void do_step(const struct fwu_step *step, const uint8_t *room) {
    if (step->kind == FWU_ERASE) memset(FLASH + step->at, 0xFF, step->length);
    if (step->kind == FWU_PROGRAM) memcpy(FLASH + step->at, room + step->from, step->length);
}

static void print_end(uint32_t answer, const struct fwu_report *report) {
    if (answer != FWU_BOOT) {
        put_number("answer ", answer);
        put("\n");
        return;
    }
    put_number("boot bank=", report->bank);
    put_number(" version=", report->version);
    put_number(" trials=", report->trials);
    put_number(" counter=", report->counter);
    put(report->fallback ? " fallback\n" : "\n");
}

static void boot(void) {
    static struct fwu_step steps[MOST_STEPS];
    static uint8_t room[5120], work[20480];
    static struct fwu_report report;
    report.steps = 0;
    fwu_work(work, sizeof work);
    uint32_t answer = fwu_boot(FLASH, FLASH_BYTES, steps, MOST_STEPS, room, sizeof room, &report);
    for (uint32_t i = 0; i < report.steps; i++) do_step(&steps[i], room);
    print_end(answer, &report);
}

static void power_off(void) {
    register uint64_t call __asm__("x0") = 0x84000008; /* PSCI SYSTEM_OFF */
    __asm__ volatile("hvc #0" : "+r"(call));
}

void start(void) {
    for (size_t i = 0; i < STACK_BYTES - 1024; i++) stack[i] = PAINT;
    for (int i = 0; i < BOOTS; i++) boot();
    FLASH[FWU_BLOCK_BYTES] ^= 1;
    boot();
    size_t free = 0;
    while (stack[free] == PAINT) free++;
    put_number("stack ", STACK_BYTES - free);
    put("\n");
    power_off();
}
