/* libfwu.a: what a boot loader or an update agent in C calls. docs/FIRMWARE.md says how a board takes it up.
 *
 * Each function is written in Rattle (crates/fwu_c) and proved to meet its contract. Nothing compares the declarations below with
 * it: who changes one changes the other. What a number stands for is the same in fwu_show and in each call that tells steps.
 *
 * Every pointer is valid for its call and not null, also where its length is 0. What is written overlaps nothing else that is
 * passed. What is only read (const) is written by nobody meanwhile. The library keeps no pointer, and calls back only for memory
 * (fwu_work). */
#ifndef FWU_H
#define FWU_H
#include <stdbool.h>
#include <stddef.h>
#include <stdint.h>
#ifdef __cplusplus
extern "C" {
#define FWU_ASSERT static_assert
#else
#define FWU_ASSERT _Static_assert
#endif

/* Rises with each change of a struct, a number or an argument. A board writes FWU_ASSERT(FWU_INTERFACE == 2, "..") in its code. */
#define FWU_INTERFACE 2

#define FWU_BLOCK_BYTES 4096    /* of a block: what one erase makes 0xFF */
#define FWU_GRANULE_BYTES 16    /* of a granule: programs are whole granules, over bytes that are erased */
#define FWU_MOST_IMAGES 16      /* of a bank */

/* ---- checksums */

/* The CRC-32 of `length` bytes: that of UEFI, of IEEE 802.3 and of zlib. */
uint32_t fwu_crc32(const uint8_t *bytes, size_t length);

/* Whether a block of `length` bytes has a right checksum in front: that of a layout, of metadata in version 1 or 2, of a counter
 * record or of a GUID partition table. */
bool fwu_sealed(const uint8_t *block, size_t length);

/* ---- the layout: block 0 of the flash */

/* What fwu_layout answers, the number N of `boot bad-layout N`. */
enum fwu_layout_fault {
    FWU_LAYOUT_READ = 0,         /* it is a layout */
    FWU_LAYOUT_SHORT = 1,        /* too few bytes */
    FWU_LAYOUT_BAD_MAGIC = 2,
    FWU_LAYOUT_BAD_SIZE = 3,
    FWU_LAYOUT_BAD_CRC = 4,
    FWU_LAYOUT_BAD_FIELD = 5,
    FWU_LAYOUT_BEYOND_FLASH = 6  /* the last bank ends behind the flash */
};

/* 0 where `length` bytes of block 0 are the layout of a flash of `blocks` blocks, else the number of its first fault. */
uint32_t fwu_layout(const uint8_t *block, size_t length, uint32_t blocks);

/* Where a bank keeps an image. */
struct fwu_slot {
    uint8_t type[16]; /* the image's type: a UUID, in the order of its text */
    uint64_t offset;  /* where the slot begins, in bytes from the flash's first one */
    uint64_t size;    /* the bytes of the slot: whole blocks */
};

/* What a layout says of a bank. */
struct fwu_slots {
    uint32_t banks;                         /* how many banks the flash has, 2 to 4 */
    uint32_t images;                        /* how many images each bank has, 2 to 16 */
    struct fwu_slot slots[FWU_MOST_IMAGES]; /* a slot for each image, in the order of the layout; behind them it stays as it was */
};

#define FWU_NO_SUCH_BANK 7

/* Where bank `bank` (from 0) keeps its images, by `length` bytes of block 0 of a flash of `blocks` blocks. 0: `slots` tells it. 1
 * to 6: enum fwu_layout_fault. 7: there is no such bank. From 1 on `slots` stays as it was. */
uint32_t fwu_slots(const uint8_t *block, size_t length, uint32_t blocks, uint32_t bank, struct fwu_slots *slots);

FWU_ASSERT(sizeof(struct fwu_slot) == 32 && offsetof(struct fwu_slot, offset) == 16, "as in crates/fwu_c/src/slots.rt");
FWU_ASSERT(sizeof(struct fwu_slots) == 520 && offsetof(struct fwu_slots, slots) == 8, "as in crates/fwu_c/src/slots.rt");

/* ---- packages (the FIP layout of Trusted Firmware-A) and manifests */

/* Where a payload stands, in bytes from the package's first one, and how many bytes it has. */
struct fwu_place {
    uint64_t offset;
    uint64_t size;
};

/* What fwu_find answers. */
enum fwu_found {
    FWU_FOUND = 0,
    FWU_NO_ENTRY = 1,   /* the package has no entry of the type */
    FWU_NO_PACKAGE = 2  /* the bytes are no package */
};

/* Where a package of `length` bytes has the payload of a type. `type` has the 16 bytes of a UUID, in the order of its text.
 * `place` is written at 0 alone, and lies within the package then. */
uint32_t fwu_find(const uint8_t *package, size_t length, const uint8_t type[16], struct fwu_place *place);

/* Whether `length` bytes begin with a manifest of the images of a layout: `block` has `size` bytes of block 0, of a flash of
 * `blocks` blocks. Only then is `version` written: the manifest's security version. False too where the block is no layout. */
bool fwu_manifest(const uint8_t *manifest, size_t length, const uint8_t *block, size_t size, uint32_t blocks, uint32_t *version);

FWU_ASSERT(sizeof(struct fwu_place) == 16 && offsetof(struct fwu_place, size) == 8, "as in crates/fwu_c/src/packages.rt");

/* ---- the boot */

/* What a call that tells steps answers, and the line of `fwu FLASH boot`, or of a script, beside it. fwu_boot never answers 16 to
 * 21. */
enum fwu_answer {
    FWU_BOOT = 0,        /* boot bank=..: a bank is to be started, once all steps are done */
    FWU_BAD_LAYOUT = 1,  /* boot bad-layout N: block 0 is no layout; no step is told */
    FWU_NO_METADATA = 2, /* boot no-metadata: neither replica is metadata of the layout; no step is told */
    FWU_NO_BANK = 3,     /* boot no-bank ..: neither the active nor the previous bank may be started; steps may repair metadata */
    FWU_STEPS_FULL = 5,  /* one more step was to follow those that are told, which fill `steps` */
    FWU_NO_FLASH = 6,    /* flash cannot be used: the length isn't that of 8 to 65,536 blocks */
    FWU_NO_ROOM = 7,     /* the work buffer has no room left, or `room` is too small for the steps' bytes */
    FWU_DENIED = 16,     /* send begin DENIED, accept DENIED, previous DENIED: the banks don't allow it; see each call */
    FWU_AUTH_FAIL = 17,  /* send end AUTH_FAIL: the package is not complete, or is below the counter */
    FWU_BAD_PACKAGE = 18, /* send bad-package ..: these bytes are no package */
    FWU_BAD_IMAGE = 19,  /* send missing .., too-large ..: it lacks an image, or one is larger than its slot */
    FWU_UNKNOWN = 20,    /* accept UNKNOWN: no image has the type */
    FWU_NOT_STARTED = 21 /* by what the flash shows no boot started the bank; no step is told */
};

enum fwu_kind {
    FWU_ERASE = 1,   /* the block at `at` becomes 0xFF: `length` is 4096, `from` is 0 */
    FWU_PROGRAM = 2, /* the bytes at `at` become the `length` bytes of the room from `from` on */
    FWU_BARRIER = 3, /* what came before outlives a loss of power before what follows is begun: the other fields are 0 */
    FWU_COPY = 4     /* a program of the `length` bytes of the package from `from` on; fwu_update alone tells it */
};

/* What is to be done to the flash. `at` and `length` are bytes of the flash. `from` is bytes from the room's first one, or at a
 * copy from the package's first one. */
struct fwu_step {
    uint32_t kind; /* enum fwu_kind */
    uint32_t at;
    uint32_t length;
    uint32_t from;
};

/* What a boot reports. `steps` and `bytes` are written at 0 to 5 and 16 to 21; of the others each says when. At 6 and 7 nothing is
 * written: the steps, the room and the report stay as they were. */
struct fwu_report {
    uint32_t bank;                     /* at 0: the bank that is to be started */
    uint32_t version;                  /* at 0: the security version of its package */
    uint32_t trials;                   /* at 0: starts of the active bank on trial, with this one if it is its; 0 if not on trial */
    uint32_t counter;                  /* at 0: the anti-rollback counter, after the steps */
    uint32_t fallback;                 /* at 0: 1 where it is the previous bank in place of the active one, else 0 */
    uint32_t active;                   /* at 0 and 3: the active bank */
    uint32_t previous;                 /* at 0 and 3: the bank that was active before */
    uint32_t layout_fault;             /* at 1: enum fwu_layout_fault */
    uint32_t images;                   /* at 0: how many images the bank has, 2 to 16 */
    uint32_t lengths[FWU_MOST_IMAGES]; /* at 0: the bytes of each image, in the order of the layout */
    uint32_t steps;                    /* how many steps are told */
    uint32_t bytes;                    /* how many bytes of the room are theirs: as many as the programs have */
};

/* Boots a flash that lies in memory, and writes nothing to it. `flash` has all its `length` bytes, from block 0 on. `steps` has
 * room for `most` steps, which is also how many are told at most; `room` has `size` bytes. The steps are to be done in their
 * order, and at 0 before the bank is started. Each erase and program lies in blocks 1 to 3, 5 and 6. Behind those told, and
 * behind their bytes, `steps` and `room` stay as they were. The call takes its memory from the work buffer (fwu_work). */
uint32_t fwu_boot(const uint8_t *flash, size_t length, struct fwu_step *steps, size_t most, uint8_t *room, size_t size,
                  struct fwu_report *report);

FWU_ASSERT(sizeof(struct fwu_step) == 16 && offsetof(struct fwu_step, from) == 12, "as in crates/step_flash/src/step.rt");
FWU_ASSERT(sizeof(struct fwu_report) == 108 && offsetof(struct fwu_report, lengths) == 36 &&
           offsetof(struct fwu_report, bytes) == 104, "as in crates/fwu_c/src/report.rt");

/* ---- an update */

/* Installs a package on a flash that lies in memory, and writes nothing to either. `package` has `bytes` bytes: the images of the
 * flash's layout, by their types. With `acceptance` 0 each image is accepted at once; with any other number the package is on
 * trial, and is started three times at most until its images are accepted. The other arguments are those of fwu_boot.
 *
 * It boots first, which writes nothing more where the loader's boot has been. The steps are one list: those of the boot, and
 * behind them those that make the update bank invalid, write its images, and make it active. No erase, program or copy lies in
 * block 0, in block 4 or in the bank that the boot starts; where it starts none, each lies in blocks 1 to 3, 5 and 6. Bytes that
 * are found in the package are told as copies (FWU_COPY), and need no room. It looks behind the last copy, and where the first 16
 * payloads begin. A copy lies within the package. A driver that does an update's steps has to know copies. `package` stays as it
 * is until the steps are done.
 *
 * 0: once all steps are done, in their order, the next boot tries the package first. 1 to 3: no bank may be started, as fwu_boot
 * says. 5, 16 to 19: nothing is installed where none of the steps is done, and none of them need be; at 5 all of them may install
 * it. No step meets the bank that the boot starts. Where the active bank is on trial no step is told, since a boot would count one
 * more start of it. 6 and 7: nothing is written, as fwu_boot says.
 *
 * What the report says at 0 and 16 to 19 is what fwu_boot says at 0, of the bank that the boot in it starts, which need not be the
 * one that runs. Where the active bank is on trial, only `steps` and `bytes` are written, as 0. At 5 it is what it is at 0 where
 * the boot in it started a bank, and else nothing but `steps` and `bytes`. */
uint32_t fwu_update(const uint8_t *flash, size_t length, const uint8_t *package, size_t bytes, uint32_t acceptance,
                    struct fwu_step *steps, size_t most, uint8_t *room, size_t size, struct fwu_report *report);

/* ---- calls of the firmware that was started */

/* Each call here is made in the firmware that a boot started. `bank` is the bank that fwu_boot reported, whose steps are done; the
 * loader hands it on. No start is counted, and no counter raised. A call tells steps as fwu_boot does, over the same arguments. Its
 * steps first repair the metadata, where a replica lacks it. Each erase and program lies in blocks 1 and 2.
 *
 * 0: done, once all steps are done. 1, 2, 21: no step is told. 16, 20: refused (DEN0118); steps may repair metadata. 5, 6 and 7 are
 * those of fwu_boot.
 *
 * The bank has to be the active one, and accepted or on trial with a start that counts; or the previous one, and accepted. And it
 * has to hold a complete package of a version not below the counter. Else it is FWU_NOT_STARTED.
 *
 * The report says at 0, 16 and 20 what fwu_boot says at 0, by the numbers before the call. At 1 it has the layout's fault. At 5 it
 * is what it is at 0 where the bank was taken up, and else nothing but `steps` and `bytes`. */

/* Accepts the image of a type in the active bank. `type` has the 16 bytes of a UUID, in the order of its text. Once all images of
 * the bank are accepted, so is the bank, and its trials are over. An image that is accepted already is so again, by no step but
 * those of the repair. 16: the bank that was started is not the active one. 20: no image has the type. */
uint32_t fwu_accept(const uint8_t *flash, size_t length, uint32_t bank, const uint8_t type[16], struct fwu_step *steps,
                    size_t most, uint8_t *room, size_t size, struct fwu_report *report);

/* Selects the bank before: the active and the previous bank change places, and the trials are over. 16: the active bank is not on
 * trial, and was started; or the previous bank is the active one, isn't accepted, or holds no complete package of a version that is
 * not below the counter. */
uint32_t fwu_previous(const uint8_t *flash, size_t length, uint32_t bank, struct fwu_step *steps, size_t most, uint8_t *room,
                      size_t size, struct fwu_report *report);

/* ---- what a flash shows */

/* The state of a bank (DEN0118). */
enum fwu_state {
    FWU_INVALID = 0,
    FWU_VALID = 1,   /* where the bank is active it is on trial */
    FWU_ACCEPTED = 2
};

/* What is found of a bank's package: the first of 1, 3 and 4 that is so, else 0. */
enum fwu_verdict {
    FWU_GOOD = 0,          /* it is complete, and not below the counter */
    FWU_BAD_MANIFEST = 1,  /* the bank has no manifest of the layout's images */
    FWU_OTHER_IMAGE = 3,   /* an image is not what its row of the manifest says */
    FWU_BELOW_COUNTER = 4  /* its security version is below the anti-rollback counter */
};

/* What is shown of a bank. */
struct fwu_bank {
    uint32_t state;                    /* enum fwu_state */
    uint32_t verdict;                  /* enum fwu_verdict */
    uint32_t version;                  /* at FWU_GOOD and FWU_BELOW_COUNTER: the package's security version, else 0 */
    uint32_t image;                    /* at FWU_OTHER_IMAGE: the lowest such image, in the order of the layout, else 0 */
    uint8_t accepted[FWU_MOST_IMAGES]; /* for each image 1 where it was accepted, else 0; 0 behind them */
};

/* What a flash shows. */
struct fwu_shown {
    uint32_t form;             /* the version of the metadata: 1 or 2 */
    uint32_t active;           /* the active bank */
    uint32_t previous;         /* the bank that was active before */
    uint32_t trials;           /* how often the active bank was started on trial; 0 if not on trial */
    uint32_t counter;          /* the anti-rollback counter */
    uint32_t layout_fault;     /* at 1: enum fwu_layout_fault */
    uint32_t banks;            /* how many banks there are, 2 to 4 */
    uint32_t images;           /* how many images each bank has, 2 to 16 */
    struct fwu_bank bank[4];   /* each of these banks; behind them it stays as it was */
};

/* What a flash that lies in memory shows, with the packages in its banks. Nothing is repaired, no step is told, and no start is
 * counted. `flash` has all its `length` bytes. The call takes a block of 4096 bytes from the work buffer (fwu_work), 160 for itself
 * and 160 for each bank.
 *
 * 0: `shown` tells all but the fault, which stays as it was. 1: block 0 is no layout, and `layout_fault` alone is written. 2:
 * neither replica is metadata of the layout. 6: these bytes are no flash. 7: the work buffer has no room. From 2 on nothing is
 * written. */
uint32_t fwu_show(const uint8_t *flash, size_t length, struct fwu_shown *shown);

FWU_ASSERT(sizeof(struct fwu_bank) == 32 && offsetof(struct fwu_bank, accepted) == 16, "as in crates/fwu_c/src/show.rt");
FWU_ASSERT(sizeof(struct fwu_shown) == 160 && offsetof(struct fwu_shown, bank) == 32, "as in crates/fwu_c/src/show.rt");

/* ---- memory: demo/c/work.c */

/* Gives the library memory: `size` bytes, of any alignment, which are the caller's again when the next call has returned. To be
 * called before fwu_show and each call that tells steps. No boot that was measured took more than 17,280 bytes. What an update
 * takes is in docs/FIRMWARE.md. */
void fwu_work(void *memory, size_t size);

/* The most bytes of the buffer that a call took so far. */
size_t fwu_work_most(void);

#ifdef __cplusplus
}
#endif
#endif
