/*
 * Which KVM guest gets which queue of a crypto card: the C interface of a proved library.
 *
 * A queue is named by an adapter (APID) and a usage domain (APQI), both from 0 to 255. A mediated device, which has a
 * 16-byte id (its UUID), stands for a guest. The names are those of the kernel's vfio_ap attributes. C11 or C++11.
 *
 * RULES
 *  - A queue is reserved for the host where apmask has its adapter AND aqmask has its domain. It takes both, so a bit
 *    that is cleared in one of them frees all queues of that adapter or domain, whatever the other has.
 *  - The driver that a queue should have, its target: unbound where its adapter or its usage domain is not configured; else
 *    the host's where it is reserved; else passthrough where the adapter's hardware type is 10 or higher; else unbound.
 *  - Drivers change by moves alone, a queue at a time, but for queues that a new configuration takes away: these are
 *    unbound at once. So each change of apmask, aqmask or the configuration is followed by a sweep. Until then drivers are
 *    the old ones, while what is assigned and configured counts at once: a guest can keep a queue that it should lose, and
 *    it can lose a whole adapter that it had, where a domain came whose queue is not bound yet.
 *  - A device's matrix is each of its adapters with each of its domains. A number is refused if it would add a queue that
 *    is reserved, or one that another device has, open or not, configured or not; a new apmask or aqmask if a queue that
 *    is then reserved is in some device's matrix. Control domains may be shared.
 *  - Its guest_matrix has the domains that are assigned and configured, and of the adapters that are assigned and
 *    configured those whose queues with all of these domains are bound to passthrough. ONE QUEUE THAT IS NOT DROPS THE
 *    WHOLE ADAPTER. The guest's control domains are those that are assigned as control or usage domain and configured as
 *    control or usage domain. So each of its usage domains is one of its control domains, and zk_assign_control_domain is
 *    needed only for a domain that is not assigned as usage domain. Drivers play no part in this.
 *  - A guest can use a queue while its device is open and its guest_matrix has the queue. Assigning, unassigning, masks
 *    and configurations are allowed while guests run.
 *
 * FROM BOOT TO A GUEST AND ITS END
 *     zk_fresh                                     a record, with every queue reserved for the host; the limits are the
 *                                                  highest numbers that can be assigned or configured
 *     zk_set_apmask, zk_set_aqmask                 "-5,-6" as apmask takes every queue of adapters 5 and 6 from the host,
 *                                                  "-4" as aqmask every queue of domain 4
 *     zk_configure                                 what the partition has; again whenever that changes
 *     zk_sweep                                     binds the queues; again after each of the lines above
 *     zk_create, zk_assign_adapter, zk_assign_domain, zk_assign_control_domain
 *     zk_open                                      as the guest starts
 *     zk_guest_matrix_masks                        the guest's three masks; read them again after every call that changed
 *                                                  the record, since each can change them
 *     zk_close, zk_unassign_..., zk_remove         as the guest ends
 *
 * MEMORY. The caller owns all of it and lends it for the length of a call. The library allocates nothing, keeps no
 * pointer and has no state of its own, so a record ends when its memory does and there is nothing to free.
 *  - zk_fresh writes every byte of a record; the memory need not be cleared first. Several records do not know of each
 *    other, and a copy of a record is a record too. What its words mean can change with ZK_VERSION, and they are numbers
 *    of this machine: look at a record by the functions below, and do not send it elsewhere.
 *  - No pointer may be null, also where its length is 0. No two pointers of one call may lead to the same bytes.
 *  - Any contents of a record are read by the same rules, and none makes a call fault. Of two devices with one id, which
 *    no calls lead to, the one in the lower slot is meant.
 *
 * THREADS. There are no locks. Calls that take a const record only read it, and can run side by side on one record while
 * no other call runs on it; any other call must be alone on its record. Calls on different records can run side by side.
 *
 * ANSWERS. A call that can be refused answers 0, or the errno value of its refusal, as an int. The checks are made in the
 * order in which the values stand at each function, and a text is read before anything else is checked; zk_line alone
 * looks at the room for its answer first. A refused call leaves every byte that it was lent as it was. Calls that answer
 * something else, or nothing, cannot be refused.
 *
 * TEXT is bytes with a length and needs no terminator.
 *  - A number: decimal, hex after 0x, octal after a leading 0; 1 to 16 bytes, of at most 65535. Hex digits are of either
 *    case, here and below; the x is not.
 *  - A mask: 0x and 1 to 64 hex digits, bit 0 first, filled with zeros on the right; or items with commas between, each
 *    + or - and a number of at most 255, worked from left to right on the old mask.
 *  One newline may end either, and is not counted. Anything else is ZK_EINVAL.
 *
 * A MASK AS BYTES: byte 0 holds bits 0 to 7, and bit 0 is its most significant bit.
 */
#ifndef ZOKORMENDU_H
#define ZOKORMENDU_H

#include <stddef.h>
#include <stdint.h>

#ifdef __cplusplus
extern "C" {
#endif

/* 10000 times the first number, 100 times the second, the third. */
#define ZK_VERSION 300
#define ZK_VERSION_STRING "0.3.0"

/* Sizes. */
#define ZK_WORDS 406                  /* uint64_t words of a record */
#define ZK_QUEUES 65536               /* driver bytes of a record; also the place after the last queue */
#define ZK_RECORD_BYTES 68784         /* a record */
#define ZK_SLOTS 8                    /* devices at most */
#define ZK_ID_BYTES 16                /* an id */
#define ZK_MASK_BYTES 32              /* a mask */
#define ZK_MASKS_BYTES 96             /* three masks: adapters, usage domains, control domains */
#define ZK_CONFIG_BYTES 352           /* three masks, then a hardware type for each of 256 adapters */
#define ZK_LINE_BYTES 8               /* a line of a matrix, not of the console: aa.dddd and a newline */
#define ZK_CONTROL_DOMAINS_BYTES 1280 /* the longest list of assigned control domains: 256 lines of dddd and a newline */
#define ZK_NAME_BYTES 14              /* a name as a C string */
#define ZK_CONSOLE_LINE_BYTES 1024    /* the longest line of the console, without its newline */
#define ZK_ANSWER_BYTES 22            /* the longest answer line: refused EADDRNOTAVAIL and a newline */
#define ZK_MOST_MOVES 131072          /* what a sweep can need; a larger budget is taken as this */

/* The refusals. */
#define ZK_ENOENT 2         /* no device has this id, is in this slot, has this queue */
#define ZK_EBUSY 16         /* remove or open of an open device */
#define ZK_EEXIST 17        /* create of a present id */
#define ZK_ENODEV 19        /* a number or bit above its limit */
#define ZK_EINVAL 22        /* bad text; a limit above 255; close of a device that is not open */
#define ZK_ENOSPC 28        /* every slot is taken; a listing buffer under ZK_LINE_BYTES, an answer's under ZK_ANSWER_BYTES */
#define ZK_EADDRINUSE 98    /* another device has the queue, or a new mask would reserve one that a device has */
#define ZK_EADDRNOTAVAIL 99 /* a queue is reserved */

/* A queue's driver. */
#define ZK_UNBOUND 0
#define ZK_HOST 1
#define ZK_PASSTHROUGH 2

/* What a move did. */
#define ZK_IDLE 0
#define ZK_RELEASED 1
#define ZK_BOUND_HOST 2
#define ZK_BOUND_PASSTHROUGH 3

/*
 * A queue. Name its numbers, {.apid = 5, .apqi = 4}, so that they cannot be exchanged; without names the adapter is first.
 * C cuts a larger number off to a byte without a word, unless it is asked to warn (-Wconversion).
 */
struct zk_apqn {
    uint8_t apid;
    uint8_t apqi;
};

/* The highest adapter and domain numbers, each at most 255. Name them too. */
struct zk_limits {
    uint64_t adapter;
    uint64_t domain;
};

/* A record. */
struct zk_record {
    uint64_t words[ZK_WORDS];
    uint8_t drivers[ZK_QUEUES];
};

#ifdef __cplusplus
static_assert(sizeof(struct zk_record) == ZK_RECORD_BYTES, "the size of a record");
#else
_Static_assert(sizeof(struct zk_record) == ZK_RECORD_BYTES, "the size of a record");
#endif

/*
 * What the archive exports, for callers that cannot use the inline functions below: the same calls, with the record as its
 * two arrays (apart from each other, the words aligned as uint64_t), a queue and limits as two numbers, text as bytes, and
 * an answer as the byte that it fits into. Those of names answer a length, and 0 where they write nothing.
 */
uint8_t zk_raw_fresh(uint64_t *words, uint8_t *drivers, uint64_t highest_adapter, uint64_t highest_domain);
uint8_t zk_raw_create(uint64_t *words, uint8_t *drivers, const uint8_t *id);
uint8_t zk_raw_remove(uint64_t *words, uint8_t *drivers, const uint8_t *id);
uint8_t zk_raw_open(uint64_t *words, uint8_t *drivers, const uint8_t *id);
uint8_t zk_raw_close(uint64_t *words, uint8_t *drivers, const uint8_t *id);
uint8_t zk_raw_assign_adapter(uint64_t *words, uint8_t *drivers, const uint8_t *id, const uint8_t *text, size_t length);
uint8_t zk_raw_assign_domain(uint64_t *words, uint8_t *drivers, const uint8_t *id, const uint8_t *text, size_t length);
uint8_t zk_raw_assign_control_domain(uint64_t *words, uint8_t *drivers, const uint8_t *id, const uint8_t *text,
                                     size_t length);
uint8_t zk_raw_unassign_adapter(uint64_t *words, uint8_t *drivers, const uint8_t *id, const uint8_t *text, size_t length);
uint8_t zk_raw_unassign_domain(uint64_t *words, uint8_t *drivers, const uint8_t *id, const uint8_t *text, size_t length);
uint8_t zk_raw_unassign_control_domain(uint64_t *words, uint8_t *drivers, const uint8_t *id, const uint8_t *text,
                                       size_t length);
uint8_t zk_raw_assign_adapter_number(uint64_t *words, uint8_t *drivers, const uint8_t *id, uint64_t number);
uint8_t zk_raw_assign_domain_number(uint64_t *words, uint8_t *drivers, const uint8_t *id, uint64_t number);
uint8_t zk_raw_assign_control_domain_number(uint64_t *words, uint8_t *drivers, const uint8_t *id, uint64_t number);
uint8_t zk_raw_unassign_adapter_number(uint64_t *words, uint8_t *drivers, const uint8_t *id, uint64_t number);
uint8_t zk_raw_unassign_domain_number(uint64_t *words, uint8_t *drivers, const uint8_t *id, uint64_t number);
uint8_t zk_raw_unassign_control_domain_number(uint64_t *words, uint8_t *drivers, const uint8_t *id, uint64_t number);
uint8_t zk_raw_set_apmask(uint64_t *words, uint8_t *drivers, const uint8_t *text, size_t length);
uint8_t zk_raw_set_aqmask(uint64_t *words, uint8_t *drivers, const uint8_t *text, size_t length);
uint8_t zk_raw_configure(uint64_t *words, uint8_t *drivers, const uint8_t *configuration);
uint8_t zk_raw_move(const uint64_t *words, uint8_t *drivers, uint8_t apid, uint8_t apqi);
uint32_t zk_raw_sweep(const uint64_t *words, uint8_t *drivers, uint32_t budget, uint8_t *more);
uint32_t zk_raw_remaining(const uint64_t *words, const uint8_t *drivers);
uint8_t zk_raw_driver(const uint64_t *words, const uint8_t *drivers, uint8_t apid, uint8_t apqi);
uint8_t zk_raw_target(const uint64_t *words, const uint8_t *drivers, uint8_t apid, uint8_t apqi);
uint8_t zk_raw_holder(const uint64_t *words, const uint8_t *drivers, uint8_t apid, uint8_t apqi, uint8_t *id);
uint8_t zk_raw_usable(const uint64_t *words, const uint8_t *drivers, const uint8_t *id, uint8_t apid, uint8_t apqi);
uint8_t zk_raw_device(const uint64_t *words, const uint8_t *drivers, size_t slot, uint8_t *id, uint8_t *open);
uint8_t zk_raw_matrix_masks(const uint64_t *words, const uint8_t *drivers, const uint8_t *id, uint8_t *masks);
uint8_t zk_raw_guest_matrix_masks(const uint64_t *words, const uint8_t *drivers, const uint8_t *id, uint8_t *masks);
uint8_t zk_raw_matrix(const uint64_t *words, const uint8_t *drivers, const uint8_t *id, size_t place, uint8_t *buffer,
                      size_t length, size_t *written, size_t *next);
uint8_t zk_raw_guest_matrix(const uint64_t *words, const uint8_t *drivers, const uint8_t *id, size_t place, uint8_t *buffer,
                            size_t length, size_t *written, size_t *next);
uint8_t zk_raw_control_domains(const uint64_t *words, const uint8_t *drivers, const uint8_t *id, uint8_t *text,
                               size_t *written);
uint8_t zk_raw_highest_adapter(const uint64_t *words, const uint8_t *drivers);
uint8_t zk_raw_highest_domain(const uint64_t *words, const uint8_t *drivers);
void zk_raw_apmask(const uint64_t *words, const uint8_t *drivers, uint8_t *mask);
void zk_raw_aqmask(const uint64_t *words, const uint8_t *drivers, uint8_t *mask);
void zk_raw_configuration(const uint64_t *words, const uint8_t *drivers, uint8_t *configuration);
uint8_t zk_raw_line(uint64_t *words, uint8_t *drivers, const uint8_t *line, size_t length, uint8_t *out, size_t size,
                    size_t *written);
size_t zk_raw_errno_name(uint64_t value, uint8_t *name);
size_t zk_raw_moved_name(uint64_t value, uint8_t *name);

/* ---- the record ---- */

/*
 * Makes a fresh record: both host masks all ones, nothing configured, every queue unbound, no device; 0, or EINVAL for a
 * limit above 255.
 */
static inline int zk_fresh(struct zk_record *record, struct zk_limits limits)
{
    return zk_raw_fresh(record->words, record->drivers, limits.adapter, limits.domain);
}

/* Answers the limits that the record was made with, 0 to 255. */
static inline int zk_highest_adapter(const struct zk_record *record)
{
    return zk_raw_highest_adapter(record->words, record->drivers);
}

static inline int zk_highest_domain(const struct zk_record *record)
{
    return zk_raw_highest_domain(record->words, record->drivers);
}

/* ---- the host ---- */

/* Replaces apmask or aqmask; bits above the limits are allowed; 0, EINVAL or EADDRINUSE. A sweep is due then. */
static inline int zk_set_apmask(struct zk_record *record, const char *text, size_t length)
{
    return zk_raw_set_apmask(record->words, record->drivers, (const uint8_t *)text, length);
}

static inline int zk_set_aqmask(struct zk_record *record, const char *text, size_t length)
{
    return zk_raw_set_aqmask(record->words, record->drivers, (const uint8_t *)text, length);
}

/* Writes apmask or aqmask, ZK_MASK_BYTES. */
static inline void zk_apmask(const struct zk_record *record, uint8_t mask[ZK_MASK_BYTES])
{
    zk_raw_apmask(record->words, record->drivers, mask);
}

static inline void zk_aqmask(const struct zk_record *record, uint8_t mask[ZK_MASK_BYTES])
{
    zk_raw_aqmask(record->words, record->drivers, mask);
}

/*
 * Replaces the configuration: the masks of adapters, usage domains and control domains, then a hardware type for each
 * adapter, which is kept as 0 where the adapter is not configured. Unbinds each queue that is no longer configured; 0 or
 * ENODEV. A sweep is due then.
 */
static inline int zk_configure(struct zk_record *record, const uint8_t configuration[ZK_CONFIG_BYTES])
{
    return zk_raw_configure(record->words, record->drivers, configuration);
}

/* Writes the configuration in the form that zk_configure takes; a type above 255, which no call sets, as 255. */
static inline void zk_configuration(const struct zk_record *record, uint8_t configuration[ZK_CONFIG_BYTES])
{
    zk_raw_configuration(record->words, record->drivers, configuration);
}

/* ---- queues ---- */

/* Brings one queue a step nearer to its target; answers what it did, ZK_IDLE and so on. */
static inline int zk_move(struct zk_record *record, struct zk_apqn queue)
{
    return zk_raw_move(record->words, record->drivers, queue.apid, queue.apqi);
}

/* Makes up to `budget` moves by ascending queue; answers those made, and *more is 1 where moves remain, else 0. */
static inline uint32_t zk_sweep(struct zk_record *record, uint32_t budget, uint8_t *more)
{
    return zk_raw_sweep(record->words, record->drivers, budget, more);
}

/* Answers how many moves are needed until every move is idle. */
static inline uint32_t zk_remaining(const struct zk_record *record)
{
    return zk_raw_remaining(record->words, record->drivers);
}

/* Answers the driver that a queue has: ZK_UNBOUND, ZK_HOST or ZK_PASSTHROUGH. */
static inline int zk_driver(const struct zk_record *record, struct zk_apqn queue)
{
    return zk_raw_driver(record->words, record->drivers, queue.apid, queue.apqi);
}

/* Answers the driver that a queue should have. */
static inline int zk_target(const struct zk_record *record, struct zk_apqn queue)
{
    return zk_raw_target(record->words, record->drivers, queue.apid, queue.apqi);
}

/*
 * Writes the id of the device whose matrix has the queue, open or not, configured or not; 0, or ENOENT where none has. Of
 * two, which no calls lead to, it is the one in the lower slot.
 */
static inline int zk_holder(const struct zk_record *record, struct zk_apqn queue, uint8_t id[ZK_ID_BYTES])
{
    return zk_raw_holder(record->words, record->drivers, queue.apid, queue.apqi, id);
}

/* Answers 1 where the device's guest can use the queue now, else 0, also where there is no such device. */
static inline int zk_usable(const struct zk_record *record, const uint8_t id[ZK_ID_BYTES], struct zk_apqn queue)
{
    return zk_raw_usable(record->words, record->drivers, id, queue.apid, queue.apqi);
}

/* ---- mediated devices ---- */

/* Creates a device in the lowest free slot, with nothing assigned and not open; 0, EEXIST or ENOSPC. */
static inline int zk_create(struct zk_record *record, const uint8_t id[ZK_ID_BYTES])
{
    return zk_raw_create(record->words, record->drivers, id);
}

/* Removes a device; 0, ENOENT or EBUSY. */
static inline int zk_remove(struct zk_record *record, const uint8_t id[ZK_ID_BYTES])
{
    return zk_raw_remove(record->words, record->drivers, id);
}

/* Marks a device as open, as its guest starts; 0, ENOENT or EBUSY. */
static inline int zk_open(struct zk_record *record, const uint8_t id[ZK_ID_BYTES])
{
    return zk_raw_open(record->words, record->drivers, id);
}

/* Marks a device as not open, as its guest ends; 0, ENOENT or EINVAL. */
static inline int zk_close(struct zk_record *record, const uint8_t id[ZK_ID_BYTES])
{
    return zk_raw_close(record->words, record->drivers, id);
}

/*
 * Writes the id of the device in a slot, and 1 or 0 for whether it is open; 0, or ENOENT where no device is there. Slots 0
 * to ZK_SLOTS - 1 have all devices.
 */
static inline int zk_device(const struct zk_record *record, size_t slot, uint8_t id[ZK_ID_BYTES], uint8_t *open)
{
    return zk_raw_device(record->words, record->drivers, slot, id, open);
}

/*
 * Assign a number that is written as text; 0, EINVAL, ENOENT, ENODEV, and for an adapter or a domain that is new
 * EADDRNOTAVAIL, EADDRINUSE.
 */
static inline int zk_assign_adapter(struct zk_record *record, const uint8_t id[ZK_ID_BYTES], const char *text,
                                    size_t length)
{
    return zk_raw_assign_adapter(record->words, record->drivers, id, (const uint8_t *)text, length);
}

static inline int zk_assign_domain(struct zk_record *record, const uint8_t id[ZK_ID_BYTES], const char *text,
                                   size_t length)
{
    return zk_raw_assign_domain(record->words, record->drivers, id, (const uint8_t *)text, length);
}

static inline int zk_assign_control_domain(struct zk_record *record, const uint8_t id[ZK_ID_BYTES], const char *text,
                                           size_t length)
{
    return zk_raw_assign_control_domain(record->words, record->drivers, id, (const uint8_t *)text, length);
}

/*
 * Unassign a number, assigned or not; 0, EINVAL, ENOENT or ENODEV. A guest keeps a control domain that is still assigned as
 * usage domain.
 */
static inline int zk_unassign_adapter(struct zk_record *record, const uint8_t id[ZK_ID_BYTES], const char *text,
                                      size_t length)
{
    return zk_raw_unassign_adapter(record->words, record->drivers, id, (const uint8_t *)text, length);
}

static inline int zk_unassign_domain(struct zk_record *record, const uint8_t id[ZK_ID_BYTES], const char *text,
                                     size_t length)
{
    return zk_raw_unassign_domain(record->words, record->drivers, id, (const uint8_t *)text, length);
}

static inline int zk_unassign_control_domain(struct zk_record *record, const uint8_t id[ZK_ID_BYTES], const char *text,
                                             size_t length)
{
    return zk_raw_unassign_control_domain(record->words, record->drivers, id, (const uint8_t *)text, length);
}

/* The same by number. No text can be bad, so none answers EINVAL; a number above its limit is ENODEV, however large. */
static inline int zk_assign_adapter_number(struct zk_record *record, const uint8_t id[ZK_ID_BYTES], uint64_t number)
{
    return zk_raw_assign_adapter_number(record->words, record->drivers, id, number);
}

static inline int zk_assign_domain_number(struct zk_record *record, const uint8_t id[ZK_ID_BYTES], uint64_t number)
{
    return zk_raw_assign_domain_number(record->words, record->drivers, id, number);
}

static inline int zk_assign_control_domain_number(struct zk_record *record, const uint8_t id[ZK_ID_BYTES], uint64_t number)
{
    return zk_raw_assign_control_domain_number(record->words, record->drivers, id, number);
}

static inline int zk_unassign_adapter_number(struct zk_record *record, const uint8_t id[ZK_ID_BYTES], uint64_t number)
{
    return zk_raw_unassign_adapter_number(record->words, record->drivers, id, number);
}

static inline int zk_unassign_domain_number(struct zk_record *record, const uint8_t id[ZK_ID_BYTES], uint64_t number)
{
    return zk_raw_unassign_domain_number(record->words, record->drivers, id, number);
}

static inline int zk_unassign_control_domain_number(struct zk_record *record, const uint8_t id[ZK_ID_BYTES],
                                                    uint64_t number)
{
    return zk_raw_unassign_control_domain_number(record->words, record->drivers, id, number);
}

/* ---- what a device has, and what its guest gets ---- */

/* Writes the three masks of a device's matrix, ZK_MASKS_BYTES; 0 or ENOENT. */
static inline int zk_matrix_masks(const struct zk_record *record, const uint8_t id[ZK_ID_BYTES],
                                  uint8_t masks[ZK_MASKS_BYTES])
{
    return zk_raw_matrix_masks(record->words, record->drivers, id, masks);
}

/*
 * The same of its guest_matrix: what its guest gets while the device is open. Adapters without a domain are no queues.
 * Here usage domains are among the control domains; zk_matrix_masks and zk_control_domains have as control domains only
 * those that were assigned as such.
 */
static inline int zk_guest_matrix_masks(const struct zk_record *record, const uint8_t id[ZK_ID_BYTES],
                                        uint8_t masks[ZK_MASKS_BYTES])
{
    return zk_raw_guest_matrix_masks(record->words, record->drivers, id, masks);
}

/*
 * Lists a device's matrix as the kernel does, by ascending queue from a place (APID * 256 + APQI) on, whole lines only, as
 * many as fit; 0, ENOENT or ENOSPC. *written is the number of bytes; the bytes after them stay as they were. *next is the
 * place to go on from, and ZK_QUEUES where nothing is left, also for a place of ZK_QUEUES or more. A refused call leaves
 * both as they were.
 */
static inline int zk_matrix(const struct zk_record *record, const uint8_t id[ZK_ID_BYTES], size_t place, char *buffer,
                            size_t length, size_t *written, size_t *next)
{
    return zk_raw_matrix(record->words, record->drivers, id, place, (uint8_t *)buffer, length, written, next);
}

/* The same of its guest_matrix. */
static inline int zk_guest_matrix(const struct zk_record *record, const uint8_t id[ZK_ID_BYTES], size_t place, char *buffer,
                                  size_t length, size_t *written, size_t *next)
{
    return zk_raw_guest_matrix(record->words, record->drivers, id, place, (uint8_t *)buffer, length, written, next);
}

/*
 * Lists a device's assigned control domains, dddd and a newline each, by ascending number; 0 or ENOENT. *written is the
 * number of bytes; the bytes after them stay as they were.
 */
static inline int zk_control_domains(const struct zk_record *record, const uint8_t id[ZK_ID_BYTES],
                                     char text[ZK_CONTROL_DOMAINS_BYTES], size_t *written)
{
    return zk_raw_control_domains(record->words, record->drivers, id, (uint8_t *)text, written);
}

/* ---- the console ---- */

/*
 * Carries out a line of the console, given without its newline, and writes its answer line, with its newline; 0, also
 * where that line says refused, or ENOSPC. Words are parted by one space:
 *     create ID        remove ID        open ID        close ID
 *     assign ID adapter NUMBER          assign ID domain NUMBER          assign ID control NUMBER
 *     unassign ID ...                   as assign
 *     apmask MASK      aqmask MASK
 *     config MASK MASK MASK TYPES       adapters, usage domains, control domains, each in hex form; then 512 hex digits,
 *                                       two for each adapter from 0
 *     move APID APQI                    two numbers of at most 255
 *     sweep                             with a budget of ZK_MOST_MOVES
 * An ID is 32 hex digits; a NUMBER and a MASK are the texts above, but no newline may end them. The answer line is
 *     ok                                of a command
 *     ok idle                           of a move: idle, released, host or passthrough
 *     ok 8                              of a sweep: the moves made
 *     refused EINVAL                    the name of a refusal; this one also for bad text
 * A line of more than ZK_CONSOLE_LINE_BYTES, or that holds a newline, is bad text. *written is the length of the answer
 * line; no NUL ends it, and the bytes after it stay as they were. Where size is under ZK_ANSWER_BYTES the call is refused
 * ENOSPC, whatever the line: it is not carried out, and out and *written stay as they were.
 */
static inline int zk_line(struct zk_record *record, const char *line, size_t length, char *out, size_t size,
                          size_t *written)
{
    return zk_raw_line(record->words, record->drivers, (const uint8_t *)line, length, (uint8_t *)out, size, written);
}

/* ---- names ---- */

/*
 * Writes the name of one of the refusals above, as EADDRINUSE, and zeros after it, and answers it; for any other value the
 * empty string, and the rest of the buffer stays as it was.
 */
static inline const char *zk_errno_name(int value, char name[ZK_NAME_BYTES])
{
    if (zk_raw_errno_name((uint64_t)value, (uint8_t *)name) == 0)
        name[0] = 0;
    return name;
}

/* The same of what a move did: idle, released, host or passthrough. */
static inline const char *zk_moved_name(int moved, char name[ZK_NAME_BYTES])
{
    if (zk_raw_moved_name((uint64_t)moved, (uint8_t *)name) == 0)
        name[0] = 0;
    return name;
}

#ifdef __cplusplus
}
#endif

#endif
