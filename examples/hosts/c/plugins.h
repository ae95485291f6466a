/* What both hosts in C share: a plug-in read from a file of hex and loaded. */
#ifndef PLUGINS_H
#define PLUGINS_H

#include "vino_host.h"

#include <stdio.h>

/* Loads the image in FOLDER/NAME.hex under the key of zeros. Says on standard error why it can't. */
static int load_plugin(const char *folder, const char *name, uint8_t *plugin, size_t plugin_length) {
    static uint8_t image[16384];
    static const vino_keys keys = {.count = 1};
    char path[512];
    size_t length = 0;
    unsigned byte;
    uint32_t place, refusal;
    FILE *file;
    snprintf(path, sizeof path, "%s/%s.hex", folder, name);
    file = fopen(path, "r");
    if (!file) {
        fprintf(stderr, "%s: no such plug-in\n", name);
        return 0;
    }
    while (length < sizeof image && fscanf(file, "%2x", &byte) == 1) image[length++] = (uint8_t)byte;
    fclose(file);
    refusal = vino_load(&keys, image, length, plugin, plugin_length, &place);
    if (refusal) {
        char text[64];
        vino_refusal_sentence(refusal, text);
        fprintf(stderr, "%s: refused with %u (%u): %s\n", name, (unsigned)refusal, (unsigned)place, text);
    }
    return refusal == VINO_LOADED;
}

#endif
