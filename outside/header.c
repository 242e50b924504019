/*
 * Each inline function of the header once more, as header_... with a symbol, so that a program in another language can call
 * what a C program gets.
 */
#include "zokormendu.h"

/* What it answers, its name without zk_, its parameters, and what it hands on. */
#define TWIN(type, name, parameters, arguments) \
    type header_##name parameters;              \
    type header_##name parameters               \
    {                                           \
        return zk_##name arguments;             \
    }

/* The same of one that answers nothing. */
#define SILENT_TWIN(name, parameters, arguments) \
    void header_##name parameters;               \
    void header_##name parameters                \
    {                                            \
        zk_##name arguments;                     \
    }

/* The queue of two parameters. */
#define QUEUE ((struct zk_apqn){.apid = apid, .apqi = apqi})

/* Those that change a device: by its id, with a number as text, and with a number. */
#define ID_TWIN(name) TWIN(int, name, (struct zk_record *record, const uint8_t *id), (record, id))
#define TEXT_TWIN(name)                                                                             \
    TWIN(int, name, (struct zk_record *record, const uint8_t *id, const char *text, size_t length), \
         (record, id, text, length))
#define NUMBER_TWIN(name) \
    TWIN(int, name, (struct zk_record *record, const uint8_t *id, uint64_t number), (record, id, number))

/* The record. */
TWIN(int, fresh, (struct zk_record *record, uint64_t adapter, uint64_t domain),
     (record, (struct zk_limits){.adapter = adapter, .domain = domain}))
TWIN(int, highest_adapter, (const struct zk_record *record), (record))
TWIN(int, highest_domain, (const struct zk_record *record), (record))

/* The host. */
TWIN(int, set_apmask, (struct zk_record *record, const char *text, size_t length), (record, text, length))
TWIN(int, set_aqmask, (struct zk_record *record, const char *text, size_t length), (record, text, length))
SILENT_TWIN(apmask, (const struct zk_record *record, uint8_t *mask), (record, mask))
SILENT_TWIN(aqmask, (const struct zk_record *record, uint8_t *mask), (record, mask))
TWIN(int, configure, (struct zk_record *record, const uint8_t *configuration), (record, configuration))
SILENT_TWIN(configuration, (const struct zk_record *record, uint8_t *configuration), (record, configuration))

/* Queues. */
TWIN(int, move, (struct zk_record *record, uint8_t apid, uint8_t apqi), (record, QUEUE))
TWIN(uint32_t, sweep, (struct zk_record *record, uint32_t budget, uint8_t *more), (record, budget, more))
TWIN(uint32_t, remaining, (const struct zk_record *record), (record))
TWIN(int, driver, (const struct zk_record *record, uint8_t apid, uint8_t apqi), (record, QUEUE))
TWIN(int, target, (const struct zk_record *record, uint8_t apid, uint8_t apqi), (record, QUEUE))
TWIN(int, holder, (const struct zk_record *record, uint8_t apid, uint8_t apqi, uint8_t *id), (record, QUEUE, id))
TWIN(int, usable, (const struct zk_record *record, const uint8_t *id, uint8_t apid, uint8_t apqi), (record, id, QUEUE))

/* Mediated devices. */
ID_TWIN(create)
ID_TWIN(remove)
ID_TWIN(open)
ID_TWIN(close)
TWIN(int, device, (const struct zk_record *record, size_t slot, uint8_t *id, uint8_t *open), (record, slot, id, open))
TEXT_TWIN(assign_adapter)
TEXT_TWIN(assign_domain)
TEXT_TWIN(assign_control_domain)
TEXT_TWIN(unassign_adapter)
TEXT_TWIN(unassign_domain)
TEXT_TWIN(unassign_control_domain)
NUMBER_TWIN(assign_adapter_number)
NUMBER_TWIN(assign_domain_number)
NUMBER_TWIN(assign_control_domain_number)
NUMBER_TWIN(unassign_adapter_number)
NUMBER_TWIN(unassign_domain_number)
NUMBER_TWIN(unassign_control_domain_number)

/* What a device has, and what its guest gets. */
TWIN(int, matrix_masks, (const struct zk_record *record, const uint8_t *id, uint8_t *masks), (record, id, masks))
TWIN(int, guest_matrix_masks, (const struct zk_record *record, const uint8_t *id, uint8_t *masks), (record, id, masks))
TWIN(int, matrix,
     (const struct zk_record *record, const uint8_t *id, size_t place, char *buffer, size_t length, size_t *written,
      size_t *next),
     (record, id, place, buffer, length, written, next))
TWIN(int, guest_matrix,
     (const struct zk_record *record, const uint8_t *id, size_t place, char *buffer, size_t length, size_t *written,
      size_t *next),
     (record, id, place, buffer, length, written, next))
TWIN(int, control_domains, (const struct zk_record *record, const uint8_t *id, char *text, size_t *written),
     (record, id, text, written))

/* The console. */
TWIN(int, line,
     (struct zk_record *record, const char *line, size_t length, char *out, size_t size, size_t *written),
     (record, line, length, out, size, written))

/* Names. */
TWIN(const char *, errno_name, (int value, char *name), (value, name))
TWIN(const char *, moved_name, (int moved, char *name), (moved, name))
