/* vino_host.h: a proved sandbox for plug-ins, as a static library.
 *
 * A plug-in is a sealed image (docs/FORMATS.md, "Images"): code of at most 1,024 instructions and at
 * most 4,096 bytes of data. The host loads it once and calls it as often as it likes, each time with a
 * limit of instructions. What a call may touch is its segment of 4,096 bytes and the host's table of
 * words, nothing else; and a call that misbehaves is dropped: segment and table are then as they were
 * before the call, to the bit.
 *
 * Link libvino_host.a, of the folder release/ or as release/install puts it; docs/HOSTING.md shows how,
 * and says which clause carries which promise.
 *
 * Memory. All of it is the caller's: the plug-ins' bytes, the structs below, the segment and the table.
 *   They may be copied as bytes; no field is a pointer. Only vino_load takes memory (malloc), and it gives
 *   back what it took. No function keeps a pointer from one call to the next.
 * Pointers. No pointer may be null, even if a length is 0, and none may overlap another that is
 *   written. Lengths count elements. These are the only rules that are not tested.
 * Contents. What stands in a plug-in's bytes or in a struct is never trusted: whatever it is, a call ends,
 *   stays in its segment, table and structs, and answers a code. But a plug-in or a call that was changed
 *   from outside is another plug-in or another call. So write to neither; vino_check tells whether a
 *   plug-in's bytes are still what vino_load wrote.
 * Threads. The library has no state. Any number of threads may call it at once, each with structs, a
 *   segment and a table of its own. A loaded plug-in is only read by calls, and may be shared.
 * Time. Each function returns. A limit counts instructions of the plug-in, not nanoseconds.
 */
#ifndef VINO_HOST_H
#define VINO_HOST_H

#include <stddef.h>
#include <stdint.h>

#ifdef __cplusplus
extern "C" {
#endif

#define VINO_HOST_VERSION "1.0.0"

/* Bytes of a segment, and the most of what else there is. */
enum {
    VINO_SEGMENT = 4096,    /* bytes of a segment */
    VINO_MOST_CODE = 1024,  /* instructions of a plug-in */
    VINO_MOST_BODY = 4096,  /* data bytes of a plug-in */
    VINO_MOST_BYTES = 512,  /* bytes that a call is fed, or gives */
    VINO_MOST_RECORDS = 64, /* records of a call: changes of words, and words read for the first time */
    VINO_BYTES_AT = 2048    /* the place in the segment of the bytes that a call is fed, or gives */
};

/* How a call stopped: `kind` of its answer. 1 to 31: it was dropped. Up to 13 these are the causes C1 to
 * C13 of docs/CODES.md. */
enum {
    VINO_RETURNED = 0,      /* it completed; r0 to r3 and `given` are its answer */
    VINO_DIVIDED = 1,       /* it divided by zero */
    VINO_TRAPPED = 2,       /* it trapped; detail: the code of the trap */
    VINO_NOT_CALLABLE = 3,  /* it called an id above 15, or the host refused the id; detail: the id */
    VINO_BAD_ARGUMENT = 4,  /* it named no word of the table, or the host refused an argument; detail: the id */
    VINO_NO_STEPS = 9,      /* it took as many instructions as the limit says */
    VINO_NO_RECORDS = 10,   /* it made 64 records; detail: the id that it called then */
    VINO_BAD_ANSWER = 12,   /* its point doesn't take its answer; detail: r0 */
    VINO_BUSY = 16,         /* another call changed the word that it wanted, or read the one that it wanted to change;
                             * detail: the id that it called */
    VINO_BROKEN = 17,       /* it ran past its code: the plug-in's bytes aren't what vino_load wrote */
    VINO_WAITING = 32,      /* it called an id of the host, 2 to 15, and waits; detail: the id; r0 to r3: its arguments */
    VINO_MISUSED = 33       /* nothing was done: see the function */
};

/* What vino_load answers besides 0 (loaded) and 1 to 13 (refused: the codes L1 to L13); and what
 * vino_check answers. */
enum { VINO_LOADED = 0, VINO_NO_MEMORY = 14, VINO_NO_ROOM = 15, VINO_CHANGED = 16 };

/* A loaded plug-in is so many bytes of the caller's, at any place: a mark of 32 bytes, which is the SHA-256
 * of what follows; three words, the lowest byte first: how many instructions, how many data bytes, and 1
 * if its image asks the host to keep its segment from one completed call to the next (else 0); eight
 * bytes for each instruction, as docs/FORMATS.md has them; the data. Begin with any bytes; vino_load writes
 * them. As many bytes as the image has are enough. If there are more, the others are left alone. */
#define VINO_PLUGIN_BYTES(instructions, data) (44 + 8 * (size_t)(instructions) + (size_t)(data))

/* Whether a loaded plug-in asks that its segment be kept. */
#define VINO_KEEPS(plugin) ((plugin)[40] == 1)

/* The keys of sealed images. */
typedef struct {
    uint32_t count; /* 2: both; else the first alone */
    uint8_t first[32];
    uint8_t second[32];
} vino_keys;

/* A word of the host's table. Plug-ins read value k with `call 0` (r0 = k), and change it with `call 1`
 * (r0 = k, r1 = the new value); both give what it was in r0. A word that a call changed belongs to it
 * until it ends: `owner` is its number, else 0. `readers` says how many calls read it that haven't
 * ended; until then no other call may change it. A call that is refused a word so ends as VINO_BUSY.
 * The host begins with owner and readers 0 everywhere, and changes only words of which both are 0. */
typedef struct {
    uint32_t value;
    uint32_t owner;
    uint32_t readers;
} vino_word;

typedef struct {
    uint32_t place;
    uint32_t id; /* 1: it was changed; else it was read for the first time */
    uint32_t value, owner; /* as the call found it */
} vino_record;

typedef struct {
    uint32_t count;
    vino_record records[VINO_MOST_RECORDS];
} vino_log;

typedef struct {
    uint32_t regs[16];
    uint32_t pc;
} vino_machine;

/* A call. Begin with any bytes: vino_begin writes it. It is needed again only while the call waits, so
 * one struct serves all calls that don't wait at the same time. */
typedef struct {
    uint32_t state; /* 1: it waits */
    uint32_t number, point, fed, limit, left, id;
    vino_machine machine;
    vino_log log;
    uint8_t segment[VINO_SEGMENT]; /* while it waits: the caller's segment from before the call */
} vino_call;

/* What a call is asked for. */
typedef struct {
    uint32_t number; /* its name as an owner of words: not 0, and of no other call that waits over this table */
    uint32_t point;  /* 0 to 5: no bytes come back. 6 to 13: r0 says how many, at most 512. 14, 15: as many as it was fed */
    uint32_t limit;  /* the most instructions */
    uint32_t fresh;  /* 0: the segment as it is; else the plug-in's data, and zeros behind */
    uint32_t r0, r1, r2, r3; /* its arguments */
} vino_request;

/* How a call stopped. */
typedef struct {
    uint32_t kind;   /* VINO_RETURNED .. VINO_MISUSED */
    uint32_t detail; /* as said at the kind; else 0 */
    uint32_t steps;  /* how many instructions the call has taken since its beginning */
    uint32_t given;  /* if it returned: how many bytes it gives, from segment[VINO_BYTES_AT] on */
    uint32_t r0, r1, r2, r3; /* if it returned or waits; else 0 */
} vino_answer;

/* Loads a sealed image of either version, its seal checked and its code verified: 0, or the number of
 * its refusal L1 to L13, or VINO_NO_MEMORY, or VINO_NO_ROOM if it needs more than plugin_length bytes.
 * `place` is then the number of the refused instruction (L6 to L10), or how many bytes the image needs
 * (VINO_NO_ROOM), else 0. If it doesn't return 0, the plug-in's bytes stay as they were. */
uint32_t vino_load(const vino_keys *keys, const uint8_t *image, size_t image_length,
                   uint8_t *plugin, size_t plugin_length, uint32_t *place);

/* Tells whether a plug-in's bytes are still what vino_load wrote: VINO_LOADED if the mark is the SHA-256
 * of the content, else VINO_CHANGED. It finds stray writes; whoever changes the mark too isn't found. Bytes
 * behind those that the image needs aren't looked at. No other function looks at the mark. */
uint32_t vino_check(const uint8_t *plugin, size_t plugin_length);

/* Calls a plug-in. `bytes` (at most 512) are put into the segment first, from VINO_BYTES_AT on. Returns
 * answer->kind.
 *   VINO_RETURNED: segment and table are as the plug-in left them.
 *   VINO_WAITING: go on with vino_resume, with the same plugin, call, segment and table.
 *   1 to 31: segment and table are as before, to the bit.
 *   VINO_MISUSED: request->number is 0, request->point is above 15, or there are more than 512 bytes;
 *     nothing but the answer was written. */
uint32_t vino_begin(const uint8_t *plugin, size_t plugin_length, vino_call *call, const vino_request *request,
                    const uint8_t *bytes, size_t bytes_length, uint8_t segment[VINO_SEGMENT],
                    vino_word *table, size_t table_length, vino_answer *answer);

/* Answers a call that waits. how = 0: it finds `word` in r0 and goes on. how = VINO_NOT_CALLABLE or
 * VINO_BAD_ARGUMENT: it is dropped for that cause. Returns and leaves what vino_begin does.
 *   VINO_MISUSED: the call doesn't wait (it ended, or was answered before), or `how` is none of these;
 *     nothing but the answer was written. */
uint32_t vino_resume(const uint8_t *plugin, size_t plugin_length, vino_call *call, uint32_t how,
                     uint32_t word, uint8_t segment[VINO_SEGMENT], vino_word *table, size_t table_length,
                     vino_answer *answer);

/* Puts a sentence for the kind of an answer, or for what vino_load or vino_check answered, into 64 bytes: at
 * most 63 bytes of ASCII, and zeros behind. */
void vino_sentence(uint32_t kind, char text[64]);
void vino_refusal_sentence(uint32_t code, char text[64]);

#ifdef __cplusplus
}
#endif
#endif
