/* Boots or updates a flash file by libfwu.a, or makes a call of its firmware, as a board does with its flash.
 *
 *   try FLASH                 boots, does the steps, and prints the line of `fwu FLASH boot`
 *   try FLASH cut STEP BYTES  the same, but power goes in step STEP (from 0), of which so many bytes land; prints `cut`
 *   try FLASH list            prints the answer and the steps, and does none
 *   try FLASH fronts          with room for 0, 1, 2, .. steps the front of the whole list is told; prints how many were compared
 *   try FLASH show            prints the line of `fwu FLASH show`
 *   try FLASH banks           prints what is found of the package in each bank
 *   try FLASH scarce          with less room for bytes, or less memory, the answer is the same or 7, and at 7 nothing is written
 *
 * With `update PACKAGE now` or `update PACKAGE trial` behind FLASH each is done of an update in place of a boot. It prints the
 * answer's number, and does the steps whatever that is. So it does with `accept BANK IMAGE` or `previous BANK` behind FLASH, of the
 * call of the firmware that a boot started from BANK; IMAGE is the number of an image in the layout.
 *
 * Status 0: the command is done, and of a boot a bank is to be started. 6: no bank. 1: usage. 2: a file can't be used. 5: it
 * couldn't be written. */
#include "fwu.h"
#include <fcntl.h>
#include <stdio.h>
#include <stdlib.h>
#include <string.h>
#include <sys/mman.h>
#include <sys/stat.h>
#include <unistd.h>

/* What a call is given, and what it told. */
struct told {
    uint32_t answer;
    struct fwu_report report;
    struct fwu_step *steps;
    uint8_t *room;
};

static enum { BOOT, UPDATE, ACCEPT, PREVIOUS } what;
static uint32_t bank, image;
static int file;
static const uint8_t *flash, *package;
static size_t size, package_bytes;
static uint32_t acceptance;
static size_t most_steps = 16, room_bytes = 5120, work_bytes = 20480;
static uint8_t *work;

static const uint8_t *mapped(int from, size_t *bytes) {
    struct stat status;
    if (from < 0 || fstat(from, &status)) return MAP_FAILED;
    *bytes = (size_t)status.st_size;
    return mmap(NULL, *bytes, PROT_READ, MAP_SHARED, from, 0);
}

/* Two steps for each block that the images may have. The room would hold all bytes, though most are copied from the package. The work
 * buffer has a block, the agent, the package's table, and what is told a second time, in lists that double as they grow. */
static bool take_package(const char *name, const char *how) {
    package = mapped(open(name, O_RDONLY), &package_bytes);
    acceptance = strcmp(how, "now") ? 1 : 0;
    most_steps = package_bytes / FWU_BLOCK_BYTES * 2 + 256;
    room_bytes = package_bytes + 65536;
    work_bytes = FWU_BLOCK_BYTES + 4 * (most_steps * sizeof(struct fwu_step) + room_bytes) + 4096;
    return package != MAP_FAILED;
}

/* The type of the image in the layout, or of none. */
static const uint8_t *type_of_image(void) {
    static struct fwu_slots slots;
    fwu_slots(flash, size, (uint32_t)(size / FWU_BLOCK_BYTES), 0, &slots);
    return slots.slots[image % FWU_MOST_IMAGES].type;
}

static struct told call_with(size_t most, size_t bytes, size_t memory) {
    struct told told = {.steps = calloc(most_steps, sizeof(struct fwu_step)), .room = calloc(1, room_bytes)};
    if (!told.steps || !told.room) exit(5);
    fwu_work(work, memory);
    switch (what) {
    case BOOT: told.answer = fwu_boot(flash, size, told.steps, most, told.room, bytes, &told.report); break;
    case UPDATE:
        told.answer = fwu_update(flash, size, package, package_bytes, acceptance, told.steps, most, told.room, bytes, &told.report);
        break;
    case ACCEPT:
        told.answer = fwu_accept(flash, size, bank, type_of_image(), told.steps, most, told.room, bytes, &told.report);
        break;
    case PREVIOUS: told.answer = fwu_previous(flash, size, bank, told.steps, most, told.room, bytes, &told.report); break;
    }
    return told;
}

static void let_go(struct told *told) {
    free(told->steps);
    free(told->room);
}

/* The board's flash driver stands here. A file has nothing to wait for at a barrier. */
static bool do_step(const struct told *told, const struct fwu_step *step, size_t most) {
    static uint8_t erased[FWU_BLOCK_BYTES];
    memset(erased, 0xFF, sizeof erased);
    size_t length = step->length < most ? step->length : most;
    const uint8_t *bytes = step->kind == FWU_ERASE ? erased : (step->kind == FWU_COPY ? package : told->room) + step->from;
    return step->kind == FWU_BARRIER || pwrite(file, bytes, length, step->at) == (ssize_t)length;
}

static int print_end(const struct told *told) {
    const struct fwu_report *report = &told->report;
    static const char *const words[] = {"boot", "update", "accept", "previous"};
    if (what != BOOT) return printf("%s %u\n", words[what], told->answer), 0;
    switch (told->answer) {
    case FWU_BOOT:
        printf("boot bank=%u version=%u trials=%u counter=%u%s\n", report->bank, report->version, report->trials, report->counter,
               report->fallback ? " fallback" : "");
        return 0;
    case FWU_BAD_LAYOUT: printf("boot bad-layout %u\n", report->layout_fault); return 6;
    case FWU_NO_METADATA: printf("boot no-metadata\n"); return 6;
    case FWU_NO_BANK: printf("boot no-bank active=%u previous=%u\n", report->active, report->previous); return 6;
    case FWU_NO_FLASH: printf("flash cannot be used\n"); return 2;
    default: printf("answer %u\n", told->answer); return 5;
    }
}

static int do_steps(long stop, size_t bytes) {
    struct told told = call_with(most_steps, room_bytes, work_bytes);
    for (uint32_t i = 0; i < told.report.steps; i++) {
        if (!do_step(&told, &told.steps[i], (long)i == stop ? bytes : SIZE_MAX)) return 5;
        if ((long)i == stop) return puts("cut"), 0;
    }
    return print_end(&told);
}

static int list(void) {
    struct told told = call_with(most_steps, room_bytes, work_bytes);
    printf("answer %u steps=%u bytes=%u work=%zu\n", told.answer, told.report.steps, told.report.bytes, fwu_work_most());
    for (uint32_t i = 0; i < told.report.steps; i++)
        printf("%u %u %u\n", told.steps[i].kind, told.steps[i].at, told.steps[i].length);
    return 0;
}

static int fronts(void) {
    struct told whole = call_with(most_steps, room_bytes, work_bytes);
    for (uint32_t most = 0; most < whole.report.steps; most++) {
        struct told front = call_with(most, room_bytes, work_bytes);
        if (front.answer != FWU_STEPS_FULL || front.report.steps != most) return puts("DIFFERS: the answer"), 1;
        if (memcmp(front.steps, whole.steps, most * sizeof *front.steps)) return puts("DIFFERS: a step"), 1;
        if (memcmp(front.room, whole.room, front.report.bytes)) return puts("DIFFERS: the bytes"), 1;
        let_go(&front);
    }
    printf("fronts %u\n", whole.report.steps);
    return 0;
}

/* Whether a call with so much room and memory answers as the whole one, or 7 with everything as it was. */
static bool is_scarce(const struct told *whole, size_t bytes, size_t memory, uint32_t *refused) {
    struct told told = call_with(most_steps, bytes, memory);
    bool same = told.answer == whole->answer && told.report.steps == whole->report.steps;
    bool untouched = told.answer == FWU_NO_ROOM;
    for (size_t i = 0; untouched && i < sizeof told.report; i++) untouched = !((uint8_t *)&told.report)[i];
    for (size_t i = 0; untouched && i < most_steps; i++) untouched = !told.steps[i].kind;
    for (size_t i = 0; untouched && i < room_bytes; i++) untouched = !told.room[i];
    *refused += untouched;
    let_go(&told);
    return same || untouched;
}

static int scarce(void) {
    struct told whole = call_with(most_steps, room_bytes, work_bytes);
    size_t taken = fwu_work_most();
    uint32_t refused = 0;
    for (size_t part = 0; part < 16; part++) {
        if (!is_scarce(&whole, whole.report.bytes * part / 16, work_bytes, &refused)) return puts("DIFFERS: with less room"), 1;
        if (!is_scarce(&whole, room_bytes, taken * part / 16, &refused)) return puts("DIFFERS: with less memory"), 1;
    }
    if (!is_scarce(&whole, whole.report.bytes, taken, &refused)) return puts("DIFFERS: with just enough"), 1;
    printf("scarce %u\n", refused);
    return 0;
}

static uint32_t show(struct fwu_shown *shown) {
    fwu_work(work, work_bytes);
    return fwu_show(flash, size, shown);
}

static void print_list(const char *name, const struct fwu_shown *shown, void print(const struct fwu_shown *, uint32_t)) {
    printf(" %s=", name);
    for (uint32_t i = 0; i < shown->banks; i++) {
        if (i) putchar(',');
        print(shown, i);
    }
}

static void print_state(const struct fwu_shown *shown, uint32_t number) {
    static const char *const words[] = {"invalid", "valid", "accepted"};
    fputs(words[shown->bank[number].state], stdout);
}

static void print_bits(const struct fwu_shown *shown, uint32_t number) {
    for (uint32_t i = 0; i < shown->images; i++) putchar('0' + shown->bank[number].accepted[i]);
}

static int print_shown(void) {
    struct fwu_shown shown = {0};
    switch (show(&shown)) {
    case FWU_BOOT:
        printf("show active=%u previous=%u", shown.active, shown.previous);
        print_list("banks", &shown, print_state);
        print_list("bits", &shown, print_bits);
        printf(" trials=%u counter=%u\n", shown.trials, shown.counter);
        return 0;
    case FWU_BAD_LAYOUT: printf("show bad-layout %u\n", shown.layout_fault); return 6;
    case FWU_NO_METADATA: printf("show no-metadata\n"); return 6;
    case FWU_NO_FLASH: printf("flash cannot be used\n"); return 2;
    default: return 5;
    }
}

static int print_banks(void) {
    struct fwu_shown shown = {0};
    uint32_t answer = show(&shown);
    for (uint32_t i = 0; answer == 0 && i < shown.banks; i++)
        printf("bank %u verdict=%u version=%u image=%u\n", i, shown.bank[i].verdict, shown.bank[i].version, shown.bank[i].image);
    return answer ? 6 : 0;
}

int main(int count, char **words) {
    if (count < 2) return 1;
    file = open(words[1], O_RDWR);
    flash = mapped(file, &size);
    if (flash == MAP_FAILED) return 2;
    words += 2, count -= 2;
    if (count >= 3 && !strcmp(words[0], "update")) {
        if (!take_package(words[1], words[2])) return 2;
        what = UPDATE, words += 3, count -= 3;
    } else if (count >= 3 && !strcmp(words[0], "accept")) {
        bank = (uint32_t)strtoul(words[1], NULL, 10), image = (uint32_t)strtoul(words[2], NULL, 10);
        what = ACCEPT, words += 3, count -= 3;
    } else if (count >= 2 && !strcmp(words[0], "previous")) {
        bank = (uint32_t)strtoul(words[1], NULL, 10);
        what = PREVIOUS, words += 2, count -= 2;
    }
    work = malloc(work_bytes);
    if (!work) return 5;
    if (count == 0) return do_steps(-1, 0);
    if (count == 3 && !strcmp(words[0], "cut")) return do_steps(atol(words[1]), strtoul(words[2], NULL, 10));
    if (count == 1 && !strcmp(words[0], "list")) return list();
    if (count == 1 && !strcmp(words[0], "fronts")) return fronts();
    if (count == 1 && !strcmp(words[0], "scarce")) return scarce();
    if (count == 1 && !strcmp(words[0], "show")) return print_shown();
    if (count == 1 && !strcmp(words[0], "banks")) return print_banks();
    return 1;
}
