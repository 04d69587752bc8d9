/* What both examples need of files and of parts of a text. Each string is from malloc; where there is no memory, the
 * program ends with status 3. */
#define _POSIX_C_SOURCE 200809L
#include "hoxalgurre.h"

#include <stdio.h>
#include <stdlib.h>
#include <string.h>

static inline void *had(void *block) {
    if (block == NULL) {
        fprintf(stderr, "%s\n", hoxalgurre_status_text(HOXALGURRE_NO_MEMORY));
        exit(HOXALGURRE_NO_MEMORY);
    }
    return block;
}

/* All that is in a file, with a NUL after it; NULL where a read failed. */
static inline char *read_all(FILE *file, size_t *len) {
    size_t room = 1 << 16, got;
    char *text = had(malloc(room));
    for (*len = 0; (got = fread(text + *len, 1, room - *len - 1, file)) > 0; *len += got) {
        text = had(realloc(text, room = *len + got == room - 1 ? 2 * room : room));
    }
    text[*len] = 0;
    return ferror(file) ? NULL : text;
}

/* The bytes of the part that an event begins or ends. */
static inline char *part(const char *text, const struct hoxalgurre_event *event) {
    int step = event->is_exit ? -1 : 1, depth = step;
    const struct hoxalgurre_event *other = event;
    while (depth != 0) {
        other += step;
        depth += other->is_exit ? -1 : 1;
    }
    size_t from = step > 0 ? event->index : other->index, to = step > 0 ? other->index : event->index;
    return had(strndup(text + from, to - from));
}

/* The normal form of a label. No other has more than three times as many bytes. */
static inline char *form(const char *label) {
    size_t room = 3 * strlen(label), count;
    char *out = had(calloc(1, room + 1));
    hoxalgurre_normal_form((const uint8_t *)label, strlen(label), (uint8_t *)out, room, &count);
    return out;
}

/* Whether a word is in a list that ends with NULL. */
static inline bool has(char **words, const char *word) {
    while (*words != NULL && strcmp(*words, word) != 0) {
        words++;
    }
    return *words != NULL;
}
