// native WORDS [FILE..]: the call of the page without a browser, for the static library as the toolchain builds it. Words are joined by commas. ROOM in the environment
// says how many bytes the texts may have.
#include <stdio.h>
#include <stdlib.h>
#include <string.h>

struct slice { const void *at; size_t length; };
struct lengths { size_t text, told; };
unsigned char page_run(const void *words, size_t length, const struct slice files[4], void *room, size_t size, struct lengths *lengths);

static struct slice all_of(const char *name) {
    FILE *file = fopen(name, "rb");
    char *bytes = malloc(1 << 25);
    if (!file || !bytes) exit(99);
    size_t length = fread(bytes, 1, 1 << 25, file);
    fclose(file);
    return (struct slice){bytes, length};
}

int main(int count, char **args) {
    struct slice files[4] = {{"", 0}, {"", 0}, {"", 0}, {"", 0}};
    struct lengths lengths;
    const char *asked = getenv("ROOM");
    size_t size = asked ? strtoull(asked, 0, 10) : 1 << 26;
    char *room = malloc(size), *words = args[1];
    if (!room) exit(99);
    for (char *p = words; *p; p++) if (*p == ',') *p = '\n';
    for (int i = 2; i < count && i < 6; i++) files[i - 2] = all_of(args[i]);
    int status = page_run(words, strlen(words), files, room, size, &lengths);
    fwrite(room, 1, lengths.text, stdout);
    fwrite(room + lengths.text, 1, lengths.told, stderr);
    return status;
}
