/* A plain loop over a log of one caller on the sample map: what `drm_tool replay sample brief` is measured beside.
   It reads the same lines and prints the same report, keeps one optional box in each slot, and recounts each count
   from them. It trusts its input: it tests no grammar and no limit. */
#include <stdio.h>
#include <stdlib.h>
#include <string.h>

enum { SLOTS = 1024, FULL = 65536, SIDE = 128, N = 4 };

struct box { int there, x0, y0, x1, y1; };

static struct box slots[SLOTS];
static int used;

static const int sweeps[7][10] = {
    {5, 6, 7, 9, 10, 11, -1},
    {5, 6, 9, 10, 13, 14, -1},
    {1, 2, 5, 6, 9, 10, -1},
    {5, 6, 8, 9, 10, 12, 13, -1},
    {5, 6, 7, 9, 10, 11, 13, 14, 15, -1},
    {1, 2, 3, 5, 6, 7, 9, 10, 11, -1},
    {5, 6, 8, 9, 10, 12, 13, 14, -1},
};
static const int ends[3][2] = {{0, 1}, {0, 2}, {1, 3}};

static int covered(int cell)
{
    int left = (cell % N - N / 2) * SIDE, bottom = (cell / N - N / 2) * SIDE;
    for (int s = 0; s < used; s++) {
        struct box *b = &slots[s];
        if (b->there && b->x0 <= left + SIDE && left <= b->x1 && b->y0 <= bottom + SIDE && bottom <= b->y1)
            return 1;
    }
    return 0;
}

static int count(int element)
{
    int k = 0;
    for (const int *cell = sweeps[element]; *cell >= 0; cell++)
        k += covered(*cell);
    return k;
}

int main(void)
{
    static char text[1 << 25];
    size_t length = fread(text, 1, sizeof text - 1, stdin);
    text[length] = 0;
    static char out[1 << 26];
    char *to = out;
    int number = 0;
    for (char *line = text; *line;) {
        char *end = strchr(line, '\n');
        *end = 0;
        char *word = line + 2;
        if (!strncmp(word, "put ", 4)) {
            char *at = word + 4;
            long slot = strtol(at, &at, 10);
            at += 5;
            struct box b = {1, 0, 0, 0, 0};
            b.x0 = strtol(at, &at, 10);
            b.y0 = strtol(at, &at, 10);
            b.x1 = strtol(at, &at, 10);
            b.y1 = strtol(at, &at, 10);
            if (slot >= SLOTS) {
                to += sprintf(to, "slot\n");
            } else if (number == FULL) {
                to += sprintf(to, "full %d\n", FULL);
            } else {
                slots[slot] = b;
                used = used > slot ? used : slot + 1;
                to += sprintf(to, "put %d\n", ++number);
            }
        } else if (!strncmp(word, "del ", 4)) {
            long slot = strtol(word + 4, 0, 10);
            if (slot >= SLOTS) {
                to += sprintf(to, "slot\n");
            } else if (number == FULL) {
                to += sprintf(to, "full %d\n", FULL);
            } else if (!slots[slot].there) {
                to += sprintf(to, "empty %d\n", number);
            } else {
                slots[slot].there = 0;
                to += sprintf(to, "del %d\n", ++number);
            }
        } else {
            int edge = word[6] == 'e';
            long i = strtol(word + 11, 0, 10);
            if (i >= (edge ? 3 : 4))
                to += sprintf(to, "absent\n");
            else
                to += sprintf(to, "count %d %d\n", number, count(edge ? i + 4 : i));
        }
        line = end + 1;
    }
    int nodes = 0, edges = 0;
    for (int i = 0; i < 4; i++)
        nodes += count(i) > 0;
    for (int i = 0; i < 3; i++)
        edges += count(i + 4) > 0 || count(ends[i][0]) > 0 || count(ends[i][1]) > 0;
    to += sprintf(to, "end %d %d %d\n", number, nodes, edges);
    fwrite(out, 1, to - out, stdout);
    return 0;
}
