/*
 * The three guests of the kernel's vfio-ap paper, from a bare record to running. Then the accident: a rehearsal guest asks
 * for a queue of a live one, and is refused. Then a domain that goes and comes back, a look around, and the end of a guest.
 * Prints a line for each step; guests.expected has them, worked out by hand.
 */
#include <stdio.h>
#include <string.h>

#include "zokormendu.h"

static struct zk_record record;

struct guest {
    const char *name;
    uint8_t id[ZK_ID_BYTES];
};

static const struct guest guest1 = {"Guest1", {1}};
static const struct guest guest2 = {"Guest2", {2}};
static const struct guest guest3 = {"Guest3", {3}};
static const struct guest rehearsal = {"Rehearsal", {4}};

static void say(int answer)
{
    char name[ZK_NAME_BYTES];
    if (answer == 0)
        puts("ok");
    else
        printf("refused %s\n", zk_errno_name(answer, name));
}

static void create(const struct guest *g)
{
    printf("create %s: ", g->name);
    say(zk_create(&record, g->id));
}

static void assign_adapter(const struct guest *g, const char *text)
{
    printf("assign %s adapter %s: ", g->name, text);
    say(zk_assign_adapter(&record, g->id, text, strlen(text)));
}

static void assign_domain(const struct guest *g, const char *text)
{
    printf("assign %s domain %s: ", g->name, text);
    say(zk_assign_domain(&record, g->id, text, strlen(text)));
}

static void open_device(const struct guest *g)
{
    printf("open %s: ", g->name);
    say(zk_open(&record, g->id));
}

static void set_apmask(const char *text)
{
    printf("apmask %s: ", text);
    say(zk_set_apmask(&record, text, strlen(text)));
}

static void set_aqmask(const char *text)
{
    printf("aqmask %s: ", text);
    say(zk_set_aqmask(&record, text, strlen(text)));
}

static void set_bit(uint8_t *mask, unsigned n)
{
    mask[n / 8] |= (uint8_t)(0x80 >> n % 8);
}

/* Configures adapters 5 and 6 and the first `count` of the domains. */
static int configure(size_t count)
{
    static const unsigned adapters[] = {5, 6};
    static const unsigned domains[] = {4, 0x47, 0xab, 0xff};
    uint8_t configuration[ZK_CONFIG_BYTES] = {0};
    for (size_t i = 0; i < sizeof adapters / sizeof *adapters; i++) {
        set_bit(configuration, adapters[i]);
        /* CEX5; from 10, CEX4, on an adapter can be passed through */
        configuration[ZK_MASKS_BYTES + adapters[i]] = 11;
    }
    for (size_t i = 0; i < count; i++)
        set_bit(configuration + ZK_MASK_BYTES, domains[i]);
    return zk_configure(&record, configuration);
}

static void sweep(void)
{
    uint8_t more;
    printf("remaining: %u\n", (unsigned)zk_remaining(&record));
    uint32_t used = zk_sweep(&record, ZK_MOST_MOVES, &more);
    printf("sweep: %u moves, %s\n", (unsigned)used, more ? "more remain" : "none remain");
}

/* What the guest gets, on one line. The buffer holds two lines, so a longer listing takes several calls. */
static void list(const struct guest *g)
{
    char buffer[2 * ZK_LINE_BYTES];
    size_t place = 0;
    printf("list %s:", g->name);
    while (place < ZK_QUEUES) {
        size_t written, next;
        int answer = zk_guest_matrix(&record, g->id, place, buffer, sizeof buffer, &written, &next);
        if (answer != 0) {
            putchar(' ');
            say(answer);
            return;
        }
        for (size_t i = 0; i < written; i += ZK_LINE_BYTES)
            printf(" %.*s", ZK_LINE_BYTES - 1, buffer + i);
        place = next;
    }
    putchar('\n');
}

static void print_queue(struct zk_apqn queue)
{
    printf("%02x.%04x", (unsigned)queue.apid, (unsigned)queue.apqi);
}

static void usable(const struct guest *g, struct zk_apqn queue)
{
    printf("%s can use ", g->name);
    print_queue(queue);
    printf(": %s\n", zk_usable(&record, g->id, queue) ? "yes" : "no");
}

static void move(struct zk_apqn queue)
{
    char name[ZK_NAME_BYTES];
    printf("move ");
    print_queue(queue);
    printf(": %s\n", zk_moved_name(zk_move(&record, queue), name));
}

static const char *name_of(const uint8_t *id)
{
    static const struct guest *const guests[] = {&guest1, &guest2, &guest3, &rehearsal};
    for (size_t i = 0; i < sizeof guests / sizeof *guests; i++)
        if (memcmp(guests[i]->id, id, ZK_ID_BYTES) == 0)
            return guests[i]->name;
    return "a device of somebody else";
}

static void look(struct zk_apqn queue)
{
    static const char *const drivers[] = {"unbound", "host", "passthrough"};
    uint8_t id[ZK_ID_BYTES];
    const char *holder = zk_holder(&record, queue, id) == 0 ? name_of(id) : "nobody";
    print_queue(queue);
    printf(": assigned to %s, driver %s, target %s\n", holder, drivers[zk_driver(&record, queue)],
           drivers[zk_target(&record, queue)]);
}

static void devices(void)
{
    uint8_t id[ZK_ID_BYTES], open;
    for (size_t slot = 0; slot < ZK_SLOTS; slot++)
        if (zk_device(&record, slot, id, &open) == 0)
            printf("slot %zu: %s, %s\n", slot, name_of(id), open ? "open" : "not open");
}

static void control_domains(const struct guest *g)
{
    char text[ZK_CONTROL_DOMAINS_BYTES];
    size_t written;
    if (zk_control_domains(&record, g->id, text, &written) == 0)
        printf("assigned control domains of %s: %.*s", g->name, (int)written, text);
}

/* The third of the guest's masks, which has the usage domains too. */
static void guest_control_domains(const struct guest *g)
{
    uint8_t masks[ZK_MASKS_BYTES];
    if (zk_guest_matrix_masks(&record, g->id, masks) != 0)
        return;
    const uint8_t *controls = masks + 2 * ZK_MASK_BYTES;
    printf("%s can control:", g->name);
    for (unsigned n = 0; n < 256; n++)
        if (controls[n / 8] & 0x80 >> n % 8)
            printf(" %04x", n);
    putchar('\n');
}

int main(void)
{
    const struct zk_apqn live = {.apid = 5, .apqi = 4};
    const struct zk_apqn back = {.apid = 6, .apqi = 0xff};

    printf("fresh: ");
    say(zk_fresh(&record, (struct zk_limits){.adapter = 255, .domain = 255}));

    /* secure the queues, so that the host's drivers leave them */
    set_apmask("-5,-6");
    set_aqmask("-4,-0x47,-0xab,-0xff");
    printf("configure adapters 5,6 and domains 4,0x47,0xab,0xff: ");
    say(configure(4));
    sweep();

    create(&guest1);
    create(&guest2);
    create(&guest3);
    assign_adapter(&guest1, "5");
    assign_adapter(&guest1, "6");
    assign_domain(&guest1, "4");
    assign_domain(&guest1, "0xab");
    assign_adapter(&guest2, "5");
    assign_domain(&guest2, "0x47");
    assign_domain(&guest2, "0xff");
    assign_adapter(&guest3, "6");
    assign_domain(&guest3, "0x47");
    assign_domain(&guest3, "0xff");
    open_device(&guest1);
    open_device(&guest2);
    open_device(&guest3);
    list(&guest1);
    list(&guest2);
    list(&guest3);

    /* 05.0004 is Guest1's. Adapter 5 alone is no queue yet; domain 4 would make it one. */
    create(&rehearsal);
    assign_adapter(&rehearsal, "5");
    assign_domain(&rehearsal, "4");
    open_device(&rehearsal);
    list(&rehearsal);
    usable(&guest1, live);
    usable(&rehearsal, live);

    /* A domain goes: its queues are unbound at once. It comes back: until 06.00ff is bound again, Guest3 lacks adapter 6. */
    printf("configure without domain 0xff: ");
    say(configure(3));
    list(&guest3);
    printf("configure with domain 0xff again: ");
    say(configure(4));
    list(&guest3);
    move(back);
    move(back);
    list(&guest3);
    sweep();

    look(live);
    look((struct zk_apqn){.apid = 7, .apqi = 4});

    /* The end of Guest2, whose queue 05.0047 can then be another's. */
    printf("close Guest2: ");
    say(zk_close(&record, guest2.id));
    printf("remove Guest2: ");
    say(zk_remove(&record, guest2.id));
    printf("assign Rehearsal domain number 71: ");
    say(zk_assign_domain_number(&record, rehearsal.id, 71));
    printf("assign Rehearsal domain number 256: ");
    say(zk_assign_domain_number(&record, rehearsal.id, 256));
    list(&rehearsal);

    /*
     * Guest1 can control its usage domains without any further assignment. Of the two control domains that it is given, 7 is
     * not configured and does not count; 0x47 is configured as a usage domain, which is enough.
     */
    guest_control_domains(&guest1);
    printf("assign Guest1 control domain number 7: ");
    say(zk_assign_control_domain_number(&record, guest1.id, 7));
    control_domains(&guest1);
    printf("assign Guest1 control domain 0x47: ");
    say(zk_assign_control_domain(&record, guest1.id, "0x47", 4));
    guest_control_domains(&guest1);
    devices();
    return 0;
}
