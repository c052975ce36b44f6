// Runs a piece of an update as often as asked, over libbench_speed.a: pieces scan|intake FILE TIMES, or pieces ordered FILE TIMES of its assignment alone; pieces text FILE TIMES of a text. Prints how many runs refused the message.
#include <stddef.h>
#include <stdint.h>
#include <stdio.h>
#include <stdlib.h>
#include <string.h>

uint8_t speed_first_fault(const uint8_t *message, size_t length);
uint8_t speed_text(const uint8_t *text, size_t length);
size_t speed_take_in(const uint8_t *message, size_t length, const uint8_t *parent, size_t parent_length);
size_t speed_take_ordered(const uint8_t *message, size_t length, const uint8_t *parent, size_t parent_length);

static const char PARENT[] = "topic://a/b/c";

static int refuses(const char *piece, const uint8_t *message, size_t length) {
    const uint8_t *parent = (const uint8_t *)PARENT;
    if (!strcmp(piece, "scan")) return speed_first_fault(message, length) != 0;
    if (!strcmp(piece, "text")) return speed_text(message, length) != 0;
    if (!strcmp(piece, "intake")) return speed_take_in(message, length, parent, strlen(PARENT)) == 0;
    return speed_take_ordered(message, length, parent, strlen(PARENT)) == 0;
}

int main(int count, char **words) {
    static uint8_t message[1 << 20];
    if (count != 4) return 2;
    FILE *file = fopen(words[2], "rb");
    if (!file) return 2;
    size_t length = fread(message, 1, sizeof message, file);
    fclose(file);
    int refused = 0;
    for (int left = atoi(words[3]); left > 0; left--) refused += refuses(words[1], message, length);
    printf("%d\n", refused);
    return 0;
}
