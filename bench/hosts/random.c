/* Random hosts and random plug-ins: structs of random bytes and of random instructions, images with random changes, calls over one table
 * that wait side by side, answers of all kinds, answers to calls that don't wait. After each call this is looked at: a dropped call left
 * segment and table as they were; nothing was done where it is said so; no call took more than its limit; words of other calls stayed; the
 * same call over the same bytes gives the same. Each buffer ends at a page that can't be touched.
 *
 * usage: random SEED CALLS FOLDER */
#define _GNU_SOURCE
#include "vino_host.h"

#include <stdio.h>
#include <stdlib.h>
#include <string.h>
#include <sys/mman.h>

enum { CALLS = 4, WORDS = 8, PAGE = 4096, MOST = 44 + 8 * VINO_MOST_CODE + VINO_MOST_BODY };

static uint64_t state;

static uint32_t draw(uint32_t below) {
    state ^= state << 13;
    state ^= state >> 7;
    state ^= state << 17;
    return (uint32_t)(state >> 32) % below;
}

static void fail(const char *what) {
    printf("random: %s\n", what);
    exit(1);
}

/* Memory whose end is the end of a page, with a page behind that can't be touched. */
static void *guarded(size_t size) {
    size_t whole = (size + PAGE - 1) / PAGE * PAGE;
    uint8_t *pages = mmap(NULL, whole + PAGE, PROT_READ | PROT_WRITE, MAP_PRIVATE | MAP_ANONYMOUS, -1, 0);
    if (pages == MAP_FAILED || mprotect(pages + whole, PAGE, PROT_NONE)) fail("no memory");
    return pages + whole - size;
}

static void scramble(void *at, size_t size) {
    for (size_t i = 0; i < size; i++) ((uint8_t *)at)[i] = (uint8_t)draw(256);
}

static void put_word(uint8_t *at, uint32_t word) {
    for (int i = 0; i < 4; i++) at[i] = (uint8_t)(word >> 8 * i);
}

/* Bytes of a plug-in up to the end of this memory: their number is answered. Mostly they are instructions that do something: small
 * registers and places, calls of the table and of the host. Some are any bytes, and some end too early. */
static size_t make_plugin(uint8_t *end) {
    uint32_t kind = draw(20), size = 1 + draw(24), body = draw(3) ? draw(64) : draw(8192);
    size_t length = kind == 0 ? draw(MOST + 1) : kind == 1 ? draw(44 + 8 * size + 1) : 44 + 8 * size + (body < VINO_MOST_BODY ? body : VINO_MOST_BODY) + draw(9);
    static uint8_t made[MOST + 16];
    if (length > MOST) length = MOST;
    scramble(made, length < 1024 ? length : 1024);
    if (kind == 0) {
        memcpy(end - length, made, length);
        return length;
    }
    put_word(made + 32, size);
    put_word(made + 36, body);
    put_word(made + 40, draw(2));
    for (uint32_t i = 0; i < size; i++) {
        uint8_t *c = made + 44 + 8 * i;
        c[0] = (uint8_t)(draw(3) ? 1 + draw(26) : draw(2) ? 23 : 1);
        for (int k = 1; k < 4; k++) c[k] = (uint8_t)draw(draw(9) ? 6 : 256);
        if (c[0] >= 20 && c[0] <= 22)
            put_word(c + 4, draw(size + 1));
        else if (c[0] == 23)
            put_word(c + 4, draw(3) ? draw(2) : draw(18));
        else
            put_word(c + 4, draw(4) ? draw(WORDS + 2) : draw(0xffffffff));
    }
    made[44 + 8 * (size - 1)] = 26;
    memcpy(end - length, made, length);
    return length;
}

/* The word at a place of an image. */
static uint32_t word_of(const uint8_t *image, size_t place) {
    return image[place] | (uint32_t)image[place + 1] << 8 | (uint32_t)image[place + 2] << 16 | (uint32_t)image[place + 3] << 24;
}

struct live {
    uint8_t *end; /* where the plug-in's bytes end */
    size_t size;
    vino_call *call;
    uint8_t *segment;
    uint8_t first_segment[VINO_SEGMENT];
    uint32_t limit;
    int waits;
};

static struct live lives[CALLS];
static vino_word *table;

/* The table as it would be without the changes of a call that waits. */
static void without(vino_word *words, const vino_call *call) {
    for (uint32_t i = call->log.count; i-- > 0;) {
        const vino_record *r = &call->log.records[i];
        words[r->place].value = r->value;
        words[r->place].owner = r->owner;
        if (r->id != 1) words[r->place].readers--;
    }
}

static unsigned long kinds[64];

static void look(struct live *l, const vino_answer *a, const vino_word *before, const vino_call *call_before, uint32_t number) {
    if (a->kind >= 64) fail("a kind that there isn't");
    kinds[a->kind]++;
    if (a->steps > l->limit && a->kind != VINO_MISUSED) fail("more instructions than the limit");
    for (int k = 0; k < WORDS; k++)
        if (before[k].owner != 0 && before[k].owner != number && memcmp(&before[k], &table[k], sizeof *table)) fail("a word of another call changed");
    if (a->kind >= 1 && a->kind < 32) {
        vino_word wanted[WORDS];
        memcpy(wanted, before, sizeof wanted);
        if (call_before) without(wanted, call_before);
        if (memcmp(wanted, table, sizeof wanted)) fail("the table isn't as before");
        if (memcmp(l->segment, l->first_segment, VINO_SEGMENT)) fail("the segment isn't as before");
    }
    l->waits = a->kind == VINO_WAITING;
    for (int k = 0; !l->waits && k < WORDS; k++)
        if (table[k].owner == number) fail("a word still belongs to a call that ended");
}

int main(int count, char **words) {
    if (count != 4) return 1;
    state = strtoull(words[1], NULL, 10) * 2654435761u + 88172645463325252u;
    unsigned long wanted = strtoul(words[2], NULL, 10), made = 0, loaded = 0, refused = 0, without_room = 0;
    vino_answer *answer = guarded(sizeof *answer), again;
    vino_request *request = guarded(sizeof *request);
    uint8_t *spare = (uint8_t *)guarded(MOST) + MOST;
    static uint8_t copy[MOST];
    static vino_call call_before, call_after;
    static uint8_t segment_before[VINO_SEGMENT], segment_after[VINO_SEGMENT];
    vino_word before[WORDS], after[WORDS];
    static uint8_t image[16384];
    static const vino_request wrong = {.number = 0};
    size_t image_length = 0;
    unsigned byte;
    char path[512];
    table = guarded(WORDS * sizeof *table);
    for (int i = 0; i < WORDS; i++) table[i] = (vino_word){draw(0xffffffff), 0, 0};
    for (int i = 0; i < CALLS; i++) {
        lives[i] = (struct live){.end = (uint8_t *)guarded(MOST) + MOST, .call = guarded(sizeof(vino_call)), .segment = guarded(VINO_SEGMENT)};
        scramble(lives[i].call, sizeof(vino_call));
        lives[i].call->state = 0;
        scramble(lives[i].segment, VINO_SEGMENT);
        lives[i].size = make_plugin(lives[i].end);
    }
    snprintf(path, sizeof path, "%s/shout.hex", words[3]);
    FILE *file = fopen(path, "r");
    while (file && image_length < sizeof image && fscanf(file, "%2x", &byte) == 1) image[image_length++] = (uint8_t)byte;
    while (made < wanted) {
        uint32_t i = draw(CALLS);
        struct live *l = &lives[i];
        memcpy(before, table, sizeof before);
        if (draw(64) == 0) {
            /* An image with changes, its length too. */
            static uint8_t changed[16384];
            vino_keys keys = {.count = draw(3)};
            size_t length = draw(8) ? image_length : draw((uint32_t)image_length + 9);
            uint8_t *at = changed + sizeof changed - length;
            uint32_t place;
            memcpy(at, image, length < image_length ? length : image_length);
            for (uint32_t k = draw(3); k-- > 0 && length;) at[draw((uint32_t)length)] = (uint8_t)draw(256);
            size_t room = draw(4) ? length : draw((uint32_t)image_length);
            uint8_t *plugin = spare - room;
            scramble(plugin, room < 64 ? room : 64);
            memcpy(copy, plugin, room);
            uint32_t code = vino_load(&keys, at, length, plugin, room, &place);
            if (code > 15) fail("a code of vino_load that there isn't");
            if (code && memcmp(copy, plugin, room)) fail("a refused image changed the plug-in's bytes");
            if (code == VINO_NO_ROOM && (place <= room || place > length)) fail("an image needs less than there is, or more than it has");
            if (!code) {
                size_t stray = draw((uint32_t)room);
                if (vino_check(plugin, room)) fail("what was loaded isn't what was loaded");
                if (vino_begin(plugin, room, l->call, &wrong, plugin, 0, l->segment, table, WORDS, answer) != VINO_MISUSED) fail("no misuse");
                plugin[stray] ^= (uint8_t)(1 + draw(255));
                if (stray < VINO_PLUGIN_BYTES(word_of(image, 8), word_of(image, 12)) && vino_check(plugin, room) != VINO_CHANGED)
                    fail("a stray write isn't found");
            }
            *(code == VINO_NO_ROOM ? &without_room : code ? &refused : &loaded) += 1;
            continue;
        }
        if (draw(2000) == 0 && !l->waits) scramble(l->call, sizeof *l->call), l->call->state = 0;
        if (!l->waits && draw(3) == 0) l->size = make_plugin(l->end);
        uint8_t *plugin = l->end - l->size;
        call_before = *l->call;
        memcpy(segment_before, l->segment, sizeof segment_before);
        if (l->waits || draw(20) == 0) {
            uint32_t how = draw(6) ? 0 : draw(7), word = draw(20);
            int can = l->call->state == 1 && (how == 0 || how == 3 || how == 4);
            vino_resume(plugin, l->size, l->call, how, word, l->segment, table, WORDS, answer);
            call_after = *l->call;
            memcpy(segment_after, l->segment, sizeof segment_after);
            memcpy(after, table, sizeof after);
            if (!can) {
                if (answer->kind != VINO_MISUSED) fail("an answer that can't be isn't misuse");
                if (memcmp(&call_before, &call_after, sizeof call_after) || memcmp(before, after, sizeof after) ||
                    memcmp(segment_before, segment_after, sizeof segment_after))
                    fail("misuse did something");
            } else {
                look(l, answer, before, &call_before, call_before.number);
                *l->call = call_before;
                memcpy(l->segment, segment_before, sizeof segment_before);
                memcpy(table, before, sizeof before);
                vino_resume(plugin, l->size, l->call, how, word, l->segment, table, WORDS, &again);
                if (memcmp(&again, answer, sizeof again) || memcmp(table, after, sizeof after) || memcmp(l->segment, segment_after, sizeof segment_after))
                    fail("the same answer gave something else");
            }
        } else {
            uint32_t fed = draw(10) ? draw(17) : draw(514);
            uint8_t bytes[514];
            scramble(bytes, fed + 1);
            *request = (vino_request){draw(40) ? i + 1 : 0, draw(17), draw(4) ? draw(200) : draw(3000), draw(2), draw(12), draw(12), draw(0xffffffff), 4};
            int can = request->number != 0 && request->point <= 15 && fed <= 512;
            memcpy(l->first_segment, l->segment, VINO_SEGMENT);
            l->limit = request->limit;
            vino_begin(plugin, l->size, l->call, request, bytes, fed, l->segment, table, WORDS, answer);
            call_after = *l->call;
            memcpy(segment_after, l->segment, sizeof segment_after);
            memcpy(after, table, sizeof after);
            if (!can) {
                if (answer->kind != VINO_MISUSED) fail("a call that can't be isn't misuse");
                if (memcmp(&call_before, &call_after, sizeof call_after) || memcmp(before, after, sizeof after) ||
                    memcmp(segment_before, segment_after, sizeof segment_after))
                    fail("misuse did something");
            } else {
                look(l, answer, before, NULL, i + 1);
                *l->call = call_before;
                memcpy(l->segment, segment_before, sizeof segment_before);
                memcpy(table, before, sizeof before);
                vino_begin(plugin, l->size, l->call, request, bytes, fed, l->segment, table, WORDS, &again);
                if (memcmp(&again, answer, sizeof again) || memcmp(table, after, sizeof after) || memcmp(l->segment, segment_after, sizeof segment_after))
                    fail("the same call gave something else");
            }
        }
        made++;
    }
    printf("random: %lu calls, each made twice; %lu images loaded, %lu refused, %lu without room; by kind:", made, loaded, refused, without_room);
    for (int k = 0; k < 64; k++)
        if (kinds[k]) printf(" %d:%lu", k, kinds[k]);
    printf("\n");
    return 0;
}
