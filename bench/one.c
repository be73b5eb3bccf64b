/*
 * One call, for a tool that counts instructions.
 * Usage: one edges|plain count|number|build|pack|list TIMES FAMILY N M [A B ...]
 * With TIMES 0 all but the call is done, so that its cost can be taken off.
 */
#include <stdlib.h>
#include <string.h>

#include "../include/edges.h"
#include "../tests/c/plain.h"

int main(int argc, char **argv)
{
    if (argc < 7)
        return 2;
    int library = !strcmp(argv[1], "edges");
    int times = atoi(argv[3]);
    uint8_t block[20] = {atoi(argv[4]), atoi(argv[5]), atoi(argv[6])};
    for (int i = 7; i + 1 < argc && block[3] < 8; i += 2, block[3]++) {
        block[4 + 2 * block[3]] = atoi(argv[i]);
        block[5 + 2 * block[3]] = atoi(argv[i + 1]);
    }
    uint64_t count, number, numbers[200], list[200];
    uint8_t edge[128], pack[32768];
    size_t len, pack_len, listed;
    if (edges_count(block, 20, &count) || edges_build(block, 20, count / 3, edge, sizeof edge, &len))
        return 1;
    for (int i = 0; i < 200; i++) /* from the first to near the last, or again and again */
        numbers[i] = count > 200 ? count / 200 * i : i % count;
    if (edges_pack_write(block, 20, numbers, 200, pack, sizeof pack, &pack_len))
        return 1;
    for (int i = 0; i < times; i++)
        switch (argv[2][0]) {
        case 'c':
            (library ? edges_count : plain_count)(block, 20, &count);
            break;
        case 'n':
            (library ? edges_number : plain_number)(block, 20, edge, len, &number);
            break;
        case 'b':
            (library ? edges_build : plain_build)(block, 20, count / 3, edge, sizeof edge, &len);
            break;
        case 'p':
            (library ? edges_pack_write : plain_pack_write)(block, 20, numbers, 200, pack, sizeof pack, &pack_len);
            break;
        case 'l':
            (library ? edges_pack_numbers : plain_pack_numbers)(pack, pack_len, list, 200, &listed);
            break;
        }
    return 0;
}
