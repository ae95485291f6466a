/* What calls of the library cost, and a native call as the floor.
 *
 * usage: costs FOLDER, the folder of the plug-ins' images in hex */
#define _GNU_SOURCE
#include "measure.h"
#include "vino_host.h"

static uint8_t plugin[VINO_PLUGIN_BYTES(VINO_MOST_CODE, VINO_MOST_BODY)];
static vino_call call;
static uint8_t segment[VINO_SEGMENT];
static vino_word table[16];
static uint8_t image[16384];
static size_t image_length;
static const vino_keys keys = {.count = 1};
static vino_request request = {.number = 1, .limit = 2000, .fresh = 1};
static uint32_t word = 7; /* what the host answers */
static uint32_t steps;

static void read_image(const char *folder, const char *name) {
    char path[512];
    unsigned byte;
    uint32_t place;
    FILE *file;
    snprintf(path, sizeof path, "%s/%s.hex", folder, name);
    file = fopen(path, "r");
    image_length = 0;
    while (file && image_length < sizeof image && fscanf(file, "%2x", &byte) == 1) image[image_length++] = (uint8_t)byte;
    if (file) fclose(file);
    if (vino_load(&keys, image, image_length, plugin, sizeof plugin, &place)) printf("%s doesn't load\n", name);
}

static void load_once(void) {
    uint32_t place;
    vino_load(&keys, image, image_length, plugin, sizeof plugin, &place);
}

static void check_once(void) {
    steps += vino_check(plugin, sizeof plugin);
}

static void call_once(void) {
    static const uint8_t none[1];
    vino_answer answer;
    vino_begin(plugin, sizeof plugin, &call, &request, none, 0, segment, table, 16, &answer);
    while (answer.kind == VINO_WAITING) vino_resume(plugin, sizeof plugin, &call, 0, word, segment, table, 16, &answer);
    steps = answer.steps;
}

static __attribute__((noinline)) uint32_t native(uint32_t a, uint32_t b) {
    __asm__ volatile("");
    return a + b;
}

static void native_once(void) {
    static volatile uint32_t sum;
    sum = native(sum, 3);
}

int main(int count, char **words) {
    if (count != 2) return 1;
    measure("native: an empty call", native_once, 100000);
    read_image(words[1], "add");
    measure("library: load", load_once, 2000);
    measure("library: a check", check_once, 2000);
    measure("library: an empty call", call_once, 5000);
    request.fresh = 0;
    measure("library: the same, kept segment", call_once, 5000);
    request.fresh = 1;
    read_image(words[1], "power");
    request.r0 = 3;
    request.r1 = 199;
    measure("library: 199 turns of a loop (999 instructions)", call_once, 1000);
    printf("library: bytes for each plug-in\t%zu\t0\n", VINO_PLUGIN_BYTES(plugin[32] + 256u * plugin[33], plugin[36] + 256u * plugin[37]));
    read_image(words[1], "count");
    measure("library: a word read and changed", call_once, 5000);
    read_image(words[1], "ten");
    measure("library: ten calls of the host", call_once, 1000);
    read_image(words[1], "change");
    request.r1 = 1;
    measure("library: a store, a change of a word, a division", call_once, 5000);
    request.r1 = 0;
    measure("library: the same, dropped at the division", call_once, 5000);
    request.fresh = 0;
    request.r1 = 1;
    measure("library: the same with a kept segment", call_once, 5000);
    request.r1 = 0;
    measure("library: the same with a kept segment, dropped", call_once, 5000);
    request.fresh = 1;
    read_image(words[1], "quotient");
    word = 3;
    measure("library: a call of the host, a division", call_once, 5000);
    word = 0;
    measure("library: a call of the host, dropped at the division", call_once, 5000);
    read_image(words[1], "divide");
    measure("library: a dropped call", call_once, 5000);
    read_image(words[1], "bad-endless");
    request.limit = 1000;
    measure("library: an endless call, dropped at 1,000", call_once, 1000);
    return steps == 0;
}
