/* What one request lends, and the calls that serve it. */
#ifndef SERVE_H
#define SERVE_H

#include <stddef.h>
#include <stdint.h>

/* The order of the buffers in a request; all but the last have words. */
enum { CONTROL, STACK, HEAP, TRAIL, WORK, ROOM, BYTES, BUFFERS };

/* An answer's fields in the order of its struct, 0 after the last. */
enum { FIELDS = 7 };

/* The lent part of each buffer; the guards around it are no concern here. */
typedef struct {
    uint64_t number; /* the address of a look-up, the offset of a record, the
                        heap index that is asked for */
    uint32_t *words[BYTES];
    uint8_t *bytes;
    size_t length[BUFFERS];
} lent;

typedef void service(const lent *given, uint64_t *fields);

/* The service of a call's number, or NULL: not there. */
service *service_of(uint32_t call);

/* Bit n is set if call n is there. */
uint64_t calls_there(void);

#endif
