/* A plain reader of a usb.ids list, to compare with: a tree whose names are owned copies. */
#include <stdio.h>
#include <stdlib.h>
#include <string.h>
#include <time.h>

struct leaf { unsigned short code; unsigned char digits; char *name; size_t len; };
struct mid { unsigned short code; unsigned char digits; char *name; size_t len; struct leaf *leaves; size_t count, room; };
struct top { char tag[9]; unsigned short code; unsigned char digits; char *name; size_t len; struct mid *mids; size_t count, room; };
struct list { struct top *tops; size_t count, room; };

static void *grown(void *items, size_t count, size_t *room, size_t size)
{
    if (count < *room)
        return items;
    *room = *room ? *room * 2 : 4;
    items = realloc(items, *room * size);
    if (!items)
        exit(1);
    return items;
}

static char *copy(const char *text, size_t len)
{
    char *name = malloc(len ? len : 1);
    if (!name)
        exit(1);
    memcpy(name, text, len);
    return name;
}

static int is_separator(char c) { return c == ' ' || c == '\t'; }

static int value(char c)
{
    if (c >= '0' && c <= '9') return c - '0';
    if (c >= 'a' && c <= 'f') return c - 'a' + 10;
    if (c >= 'A' && c <= 'F') return c - 'A' + 10;
    return -1;
}

/* the code at *at, and past the separators after it; 0 digits where there is none */
static int take_code(const char **at, const char *end, unsigned short *code)
{
    int digits = 0;
    unsigned number = 0;
    const char *p = *at;
    while (p < end && !is_separator(*p)) {
        int v = value(*p);
        if (v < 0 || digits == 4)
            return 0;
        number = number * 16 + (unsigned)v;
        digits++;
        p++;
    }
    while (p < end && is_separator(*p))
        p++;
    *at = p;
    *code = (unsigned short)number;
    return digits;
}

static int read_line(struct list *list, const char *p, const char *end)
{
    unsigned short code;
    int digits, tabs = 0;
    while (end > p && (is_separator(end[-1]) || end[-1] == '\r'))
        end--;
    const char *q = p;
    while (q < end && is_separator(*q))
        q++;
    if (q == end || *q == '#')
        return 1;
    while (tabs < 2 && p < end && *p == '\t') {
        tabs++;
        p++;
    }
    if (tabs == 0) {
        char tag[9] = "";
        const char *word = p;
        size_t len;
        digits = take_code(&p, end, &code);
        if (digits != 4) {
            p = word;
            while (p < end && *p >= 'A' && *p <= 'Z')
                p++;
            len = (size_t)(p - word);
            if (len == 0 || len > 8 || p == end || !is_separator(*p))
                return 0;
            memcpy(tag, word, len);
            while (p < end && is_separator(*p))
                p++;
            digits = take_code(&p, end, &code);
            if (!digits)
                return 0;
        }
        list->tops = grown(list->tops, list->count, &list->room, sizeof *list->tops);
        struct top *top = &list->tops[list->count++];
        memset(top, 0, sizeof *top);
        memcpy(top->tag, tag, sizeof tag);
        top->code = code;
        top->digits = (unsigned char)digits;
        top->len = (size_t)(end - p);
        top->name = copy(p, top->len);
        return 1;
    }
    digits = take_code(&p, end, &code);
    if (!digits || list->count == 0)
        return 0;
    struct top *top = &list->tops[list->count - 1];
    if (tabs == 1) {
        top->mids = grown(top->mids, top->count, &top->room, sizeof *top->mids);
        struct mid *mid = &top->mids[top->count++];
        memset(mid, 0, sizeof *mid);
        mid->code = code;
        mid->digits = (unsigned char)digits;
        mid->len = (size_t)(end - p);
        mid->name = copy(p, mid->len);
        return 1;
    }
    if (top->count == 0)
        return 0;
    struct mid *mid = &top->mids[top->count - 1];
    mid->leaves = grown(mid->leaves, mid->count, &mid->room, sizeof *mid->leaves);
    struct leaf *leaf = &mid->leaves[mid->count++];
    leaf->code = code;
    leaf->digits = (unsigned char)digits;
    leaf->len = (size_t)(end - p);
    leaf->name = copy(p, leaf->len);
    return 1;
}

static int read_list(struct list *list, const char *text, size_t len)
{
    const char *p = text, *end = text + len;
    while (p < end) {
        const char *lf = memchr(p, '\n', (size_t)(end - p));
        const char *stop = lf ? lf : end;
        if (!read_line(list, p, stop))
            return 0;
        p = lf ? lf + 1 : end;
    }
    return 1;
}

static void free_list(struct list *list)
{
    for (size_t i = 0; i < list->count; i++) {
        struct top *top = &list->tops[i];
        for (size_t j = 0; j < top->count; j++) {
            struct mid *mid = &top->mids[j];
            for (size_t k = 0; k < mid->count; k++)
                free(mid->leaves[k].name);
            free(mid->leaves);
            free(mid->name);
        }
        free(top->mids);
        free(top->name);
    }
    free(list->tops);
}

int main(int argc, char **argv)
{
    if (argc < 3)
        return 1;
    FILE *file = fopen(argv[1], "rb");
    if (!file)
        return 1;
    fseek(file, 0, SEEK_END);
    size_t len = (size_t)ftell(file);
    rewind(file);
    char *text = malloc(len ? len : 1);
    if (!text || fread(text, 1, len, file) != len)
        return 1;
    fclose(file);
    for (int i = 0; i < atoi(argv[2]); i++) {
        struct list list = {0};
        struct timespec a, b;
        clock_gettime(CLOCK_MONOTONIC, &a);
        if (!read_list(&list, text, len))
            return 1;
        clock_gettime(CLOCK_MONOTONIC, &b);
        free_list(&list);
        printf("read %ld\n", (long)((b.tv_sec - a.tv_sec) * 1000000 + (b.tv_nsec - a.tv_nsec) / 1000));
    }
    free(text);
    return 0;
}
