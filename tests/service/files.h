/* Files as bytes, for the programs that call stir.h. */
#include <stdint.h>
#include <stdio.h>
#include <stdlib.h>

typedef struct bytes {
    uint8_t *at;
    size_t size;
} bytes;

static bytes read_file(const char *name) {
    FILE *file = fopen(name, "rb");
    if (!file) {
        perror(name);
        exit(1);
    }
    bytes content = {NULL, 0};
    size_t read = 0;
    do {
        content.size += read;
        content.at = realloc(content.at, content.size + (1 << 20));
        read = content.at ? fread(content.at + content.size, 1, 1 << 20, file) : 0;
    } while (read > 0);
    fclose(file);
    return content;
}
