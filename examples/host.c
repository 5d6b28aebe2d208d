/* Asks the host question of a town file: host FILE SOURCE DEPARTURE DESTINATION. */
#include <errno.h>
#include <stdint.h>
#include <stdio.h>
#include <stdlib.h>
#include "cabinet.h"

/* One byte more than a town file may have, so that a longer one is seen to be too long. */
static uint8_t text[65537];

static const char *refusal(uint32_t number) {
    switch (number) {
    case 9: return "the source is not a junction of the town";
    case 10: return "the departure is not a tick of the day";
    case 12: return "the destination is not a junction of the town";
    case 13: return "the destination is not reached";
    case 20: return "the text is too long";
    case 21: return "a line without a line feed";
    case 22: return "a line of more than 700 bytes";
    case 23: return "a line with no known mark";
    case 24: return "a mark out of turn";
    case 25: return "fields that are not of the form";
    case 26: return "a field with a wrong value";
    case 27: return "TN or FN is missing";
    default: return "no refusal that is known";
    }
}

static int number_of(const char *word, uint32_t *number) {
    char *end;
    errno = 0;
    unsigned long value = strtoul(word, &end, 10);
    if (errno != 0 || *word < '0' || *word > '9' || *end != '\0' || value > UINT32_MAX) return 0;
    *number = (uint32_t)value;
    return 1;
}

int main(int count, char **words) {
    uint32_t source, departure, destination;
    if (count != 5 || !number_of(words[2], &source) || !number_of(words[3], &departure) || !number_of(words[4], &destination)) {
        fprintf(stderr, "usage: %s FILE SOURCE DEPARTURE DESTINATION\n", words[0]);
        return 2;
    }
    FILE *file = fopen(words[1], "rb");
    if (file == NULL) {
        perror(words[1]);
        return 2;
    }
    size_t length = fread(text, 1, sizeof text, file);
    if (ferror(file)) {
        perror(words[1]);
        return 2;
    }
    fclose(file);
    uint32_t answer = cabinet_host_question(text, length, source, departure, destination);
    if (answer < CABINET_HOST_REFUSED) {
        printf("%lu\n", (unsigned long)answer);
        return 0;
    }
    uint32_t number = answer - CABINET_HOST_REFUSED;
    printf("refused %lu: %s\n", (unsigned long)number, refusal(number));
    return 1;
}
