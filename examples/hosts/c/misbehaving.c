/* Plug-ins that change their segment and the table and then misbehave, each in another way. Each is dropped, and segment and table are
 * compared with what they were.
 *
 * usage: misbehaving FOLDER */
#include "plugins.h"

#include <string.h>

enum { WORDS = 16 };

int main(int count, char **words) {
    static const char *const names[] = {"bad-divides", "bad-traps", "bad-unknown", "bad-argument", "bad-endless",
                                        "bad-records", "bad-refused", "bad-answers"};
    static uint8_t plugin[VINO_PLUGIN_BYTES(VINO_MOST_CODE, VINO_MOST_BODY)];
    static vino_call call;
    static uint8_t segment[VINO_SEGMENT], before[VINO_SEGMENT];
    static const uint8_t none[1] = {0};
    vino_word table[WORDS], first[WORDS];
    vino_request request = {.number = 7, .point = 6, .limit = 1000, .fresh = 1};
    vino_answer answer;
    int failed = 0;
    if (count != 2) return 1;
    for (int i = 0; i < VINO_SEGMENT; i++) before[i] = (uint8_t)(i * 7);
    for (uint32_t i = 0; i < WORDS; i++) first[i] = (vino_word){100 + i, 0, 0};
    for (size_t i = 0; i < sizeof names / sizeof *names; i++) {
        memcpy(segment, before, sizeof segment);
        memcpy(table, first, sizeof table);
        if (!load_plugin(words[1], names[i], plugin, sizeof plugin)) return 1;
        vino_begin(plugin, sizeof plugin, &call, &request, none, 0, segment, table, WORDS, &answer);
        if (answer.kind == VINO_WAITING) {
            printf("%s waits: word 1 is %u and belongs to %u\n", names[i], table[1].value, table[1].owner);
            vino_resume(plugin, sizeof plugin, &call, VINO_BAD_ARGUMENT, 0, segment, table, WORDS, &answer);
        }
        int same = !memcmp(segment, before, sizeof segment) && !memcmp(table, first, sizeof table);
        printf("%s dropped: kind %u detail %u (%u instructions), %s\n", names[i], answer.kind, answer.detail, answer.steps,
               same ? "all as before" : "CHANGED");
        failed += !same;
    }
    /* A stray write to a loaded plug-in. */
    char text[64];
    plugin[60] ^= 1;
    vino_refusal_sentence(vino_check(plugin, sizeof plugin), text);
    printf("a stray write: %s\n", text);
    return failed != 0;
}
