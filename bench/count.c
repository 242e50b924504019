/* Makes one kind of call many times, for a program that counts instructions (bench/count.sh):
 *
 *     count KIND TIMES
 *
 * Without arguments it prints the kinds. An answer that is not the expected one ends it with 1.
 */
#include <stdio.h>
#include <stdlib.h>
#include <string.h>

#include "zokormendu.h"

static struct zk_record record;
static uint8_t configurations[2][ZK_CONFIG_BYTES];
static char buffer[ZK_LINE_BYTES * ZK_QUEUES];
static const uint8_t first[ZK_ID_BYTES] = {1}, last[ZK_ID_BYTES] = {ZK_SLOTS};

#define ALL "0xffffffffffffffffffffffffffffffffffffffffffffffffffffffffffffffff"
#define EVEN "0xaaaaaaaaaaaaaaaaaaaaaaaaaaaaaaaaaaaaaaaaaaaaaaaaaaaaaaaaaaaaaaaa"
#define ODD "0x5555555555555555555555555555555555555555555555555555555555555555"
#define TEXT(s) s, sizeof s - 1

static void must(int answer, int value)
{
    if (answer != value) {
        fprintf(stderr, "count: %d, not %d\n", answer, value);
        exit(1);
    }
}

static struct zk_apqn queue(int k)
{
    unsigned q = (unsigned)k * 40503u % ZK_QUEUES;
    return (struct zk_apqn){(uint8_t)(q / 256), (uint8_t)(q % 256)};
}

/* Everything is configured, the adapters from 128 on are the host's, and every queue has its driver. The first device has adapter 1
 * and the domains 10 and 11, the last domain 10 and adapter 2; those between have an adapter and a domain each. */
static void prepare(void)
{
    uint8_t more;
    memset(configurations[0], 0xaa, 3 * ZK_MASK_BYTES);
    memset(configurations[0] + 3 * ZK_MASK_BYTES, 11, 256);
    memset(configurations[1], 0xff, 3 * ZK_MASK_BYTES);
    memset(configurations[1] + 3 * ZK_MASK_BYTES, 10, 256);
    must(zk_fresh(&record, (struct zk_limits){255, 255}), 0);
    must(zk_set_apmask(&record, TEXT("0x00000000000000000000000000000000ffffffffffffffffffffffffffffffff")), 0);
    must(zk_configure(&record, configurations[1]), 0);
    zk_sweep(&record, ZK_MOST_MOVES, &more);
    for (uint8_t n = 1; n <= ZK_SLOTS; n++) {
        const uint8_t id[ZK_ID_BYTES] = {n};
        must(zk_create(&record, id), 0);
        must(zk_assign_adapter_number(&record, id, n == 1 ? 1 : n == ZK_SLOTS ? 2 : 20 + n), 0);
        must(zk_assign_domain_number(&record, id, n == 1 || n == ZK_SLOTS ? 10 : 20 + n), 0);
    }
    must(zk_assign_domain_number(&record, first, 11), 0);
    must(zk_open(&record, first), 0);
}

static void nothing(int k) { (void)k; }
/* From the second call on it is assigned already, and no product is looked at. */
static void assign_again(int k) { (void)k; must(zk_assign_adapter(&record, last, TEXT("50")), 0); }
static void assign_98(int k) { (void)k; must(zk_assign_adapter(&record, last, TEXT("1")), ZK_EADDRINUSE); }
static void assign_99(int k) { (void)k; must(zk_assign_adapter(&record, last, TEXT("200")), ZK_EADDRNOTAVAIL); }
static void number_again(int k) { (void)k; must(zk_assign_adapter_number(&record, last, 50), 0); }

/* An assignment that looks at the host's masks and at every other device, and its end. */
static void assign_anew(int k)
{
    assign_again(k);
    must(zk_unassign_adapter(&record, last, TEXT("50")), 0);
}

static void number_anew(int k)
{
    number_again(k);
    must(zk_unassign_adapter_number(&record, last, 50), 0);
}

static void apmask_98(int k) { (void)k; must(zk_set_apmask(&record, TEXT("+2")), ZK_EADDRINUSE); }
static void move(int k) { must(zk_move(&record, queue(k)), ZK_IDLE); }
static void target(int k) { must(zk_target(&record, queue(k)), queue(k).apid < 128 ? ZK_PASSTHROUGH : ZK_HOST); }
static void usable(int k) { (void)k; must(zk_usable(&record, first, (struct zk_apqn){1, 11}), 1); }
static void configure(int k) { must(zk_configure(&record, configurations[k % 2]), 0); }
static void remaining(int k) { (void)k; must((int)zk_remaining(&record), 0); }

static void holder(int k)
{
    uint8_t id[ZK_ID_BYTES];
    (void)k;
    must(zk_holder(&record, (struct zk_apqn){2, 10}, id), 0);
}

static void sweep_idle(int k)
{
    uint8_t more;
    (void)k;
    must((int)zk_sweep(&record, ZK_MOST_MOVES, &more), 0);
}

/* Two moves of each queue, after a change of apmask, which is counted too. The devices are gone. */
static void sweep_exchange(int k)
{
    uint8_t more;
    if (k == 0) {
        must(zk_close(&record, first), 0);
        for (uint8_t n = 1; n <= ZK_SLOTS; n++) {
            const uint8_t id[ZK_ID_BYTES] = {n};
            must(zk_remove(&record, id), 0);
        }
        must(zk_set_apmask(&record, TEXT(EVEN)), 0);
        zk_sweep(&record, ZK_MOST_MOVES, &more);
    }
    must(k % 2 ? zk_set_apmask(&record, TEXT(EVEN)) : zk_set_apmask(&record, TEXT(ODD)), 0);
    must((int)zk_sweep(&record, ZK_MOST_MOVES, &more), ZK_MOST_MOVES);
}

/* The last device, alone then, gets every adapter and every domain. */
static void whole(int k)
{
    if (k == 0) {
        must(zk_close(&record, first), 0);
        for (uint8_t n = 1; n < ZK_SLOTS; n++) {
            const uint8_t id[ZK_ID_BYTES] = {n};
            must(zk_remove(&record, id), 0);
        }
        must(zk_set_apmask(&record, TEXT("0x00")), 0);
        for (uint64_t n = 0; n < 256; n++) {
            must(zk_assign_adapter_number(&record, last, n), 0);
            must(zk_assign_domain_number(&record, last, n), 0);
        }
    }
}

static void list(int k)
{
    size_t written, next;
    whole(k);
    must(zk_matrix(&record, last, 0, buffer, sizeof buffer, &written, &next), 0);
    must(written == sizeof buffer, 1);
}

static void guest_masks(int k)
{
    uint8_t masks[ZK_MASKS_BYTES];
    whole(k);
    must(zk_guest_matrix_masks(&record, last, masks), 0);
    must(masks[2 * ZK_MASK_BYTES - 1], 0xff);
}

static void line(const char *text, size_t length)
{
    char out[ZK_ANSWER_BYTES];
    size_t written;
    must(zk_line(&record, text, length, out, sizeof out, &written), 0);
    must(out[0], 'o');
}

static void line_again(int k) { (void)k; line(TEXT("assign 01000000000000000000000000000000 adapter 50")); }

static void line_anew(int k)
{
    line_again(k);
    line(TEXT("unassign 01000000000000000000000000000000 adapter 50"));
}

static void line_move(int k) { (void)k; line(TEXT("move 5 4")); }

static const struct kind {
    const char *name;
    void (*call)(int k);
} kinds[] = {
    {"nothing", nothing},
    {"assign again", assign_again},
    {"assign and unassign", assign_anew},
    {"assign, 98", assign_98},
    {"assign, 99", assign_99},
    {"number again", number_again},
    {"number, and unassign", number_anew},
    {"apmask, 98", apmask_98},
    {"console: assign again", line_again},
    {"console: and unassign", line_anew},
    {"console: move", line_move},
    {"move", move},
    {"target", target},
    {"usable", usable},
    {"holder", holder},
    {"configure", configure},
    {"remaining", remaining},
    {"sweep, nothing due", sweep_idle},
    {"sweep, two moves each", sweep_exchange},
    {"list", list},
    {"guest masks", guest_masks},
};

int main(int argc, char **argv)
{
    for (size_t i = 0; i < sizeof kinds / sizeof *kinds; i++) {
        if (argc == 1)
            puts(kinds[i].name);
        else if (argc == 3 && strcmp(argv[1], kinds[i].name) == 0) {
            int times = atoi(argv[2]);
            prepare();
            for (int k = 0; k < times; k++)
                kinds[i].call(k);
            return 0;
        }
    }
    return argc != 1;
}
