/*
 * [--layout-1.0] PATH..: prints the answer for each file named: its number, as the box gets it, or as a file of layout 1.0; a sound file's listing must keep
 * zt.h's bound. C99 and C++.
 */
#include "read_file.h"
#include "zt.h"
#include <string.h>

static uint64_t table[ZT_TABLE_MOST];

/* Whether the listing of a sound file has room in three bytes for each of its manifest's. */
static int listing_fits(uint64_t layout, bytes file) {
    zt_answer read = zt_read_as(layout, file.at, file.length, table, ZT_TABLE_MOST);
    size_t room = 3 * (file.length - (layout == ZT_LAYOUT_1_0 ? 8 : 16) - (size_t)read.start);
    uint8_t *text = (uint8_t *)malloc(room);
    zt_text listed = zt_list(file.at, file.length, table, ZT_TABLE_MOST, read.objects, read.components, text, room);
    free(text);
    return read.number == ZT_ACCEPTED && listed.number == ZT_ACCEPTED;
}

int main(int count, char **paths) {
    uint64_t layout = ZT_LAYOUT_1_2;
    int i = 1;
    /* null where nothing is lent: an empty file is SHORT, no table has a component, no text has room for a listing's first line, no output for a file */
    if (zt_accept(NULL, 0) != ZT_SHORT || zt_read(NULL, 0, NULL, 0).number != ZT_SHORT || zt_view(NULL, 0, NULL, 0, 0, 0, 0).number != ZT_INDEX ||
        zt_list(NULL, 0, NULL, 0, 0, 0, NULL, 0).number != ZT_ROOM || zt_write(NULL, 0, 0, 0, 0, 0, NULL, 0, NULL, 0).number != ZT_ROOM ||
        zt_accept_as(ZT_LAYOUT_1_0, NULL, 0) != ZT_SHORT || zt_read_as(ZT_LAYOUT_1_0, NULL, 0, NULL, 0).number != ZT_SHORT) {
        fputs("null pointers with no length are answered wrongly\n", stderr);
        return 1;
    }
    if (count > 1 && strcmp(paths[1], "--layout-1.0") == 0) layout = ZT_LAYOUT_1_0, i++;
    for (; i < count; i++) {
        bytes file = read_file(paths[i]);
        int number = (int)(layout == ZT_LAYOUT_1_0 ? zt_accept_as(layout, file.at, file.length) : zt_accept(file.at, file.length));
        printf("%s %d\n", paths[i], number);
        if (number == ZT_ACCEPTED && !listing_fits(layout, file)) {
            fprintf(stderr, "%s: the listing is longer than zt.h says\n", paths[i]);
            return 1;
        }
        free(file.at);
    }
    return 0;
}
