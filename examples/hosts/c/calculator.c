/* A calculator whose functions are plug-ins: each line is NAME X Y, and the plug-in of that name answers. A plug-in that asks (id 2) is
 * told the length of its own name, and all plug-ins share a table of two words.
 *
 * usage: calculator FOLDER */
#include "plugins.h"

#include <string.h>

int main(int count, char **words) {
    static uint8_t plugin[VINO_PLUGIN_BYTES(VINO_MOST_CODE, VINO_MOST_BODY)];
    static vino_call call;
    static uint8_t segment[VINO_SEGMENT];
    static const uint8_t none[1] = {0};
    vino_word table[2] = {{0, 0, 0}, {0, 0, 0}};
    vino_request request = {.number = 1, .point = 0, .limit = 10000, .fresh = 1};
    vino_answer answer;
    char name[32];
    if (count != 2) return 1;
    while (scanf("%31s %u %u", name, &request.r0, &request.r1) == 3) {
        if (!load_plugin(words[1], name, plugin, sizeof plugin)) continue;
        vino_begin(plugin, sizeof plugin, &call, &request, none, 0, segment, table, 2, &answer);
        while (answer.kind == VINO_WAITING) {
            uint32_t how = answer.detail == 2 ? 0 : VINO_NOT_CALLABLE;
            vino_resume(plugin, sizeof plugin, &call, how, (uint32_t)strlen(name), segment, table, 2, &answer);
        }
        if (answer.kind == VINO_RETURNED)
            printf("%s %u (%u instructions)\n", name, answer.r0, answer.steps);
        else {
            char text[64];
            vino_sentence(answer.kind, text);
            printf("%s dropped: %s (%u instructions)\n", name, text, answer.steps);
        }
    }
    return 0;
}
