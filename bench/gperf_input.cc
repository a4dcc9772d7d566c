// Prints the input of gperf for the fixed list of N codes: a keyword is the four nibbles of a code less one, as letters.
#include "lists.h"

#include <cstdio>
#include <cstdlib>

int main(int, char **argv) {
    List l = fixed_list((size_t)std::atoi(argv[1]));
    std::puts("%struct-type\n%language=ANSI-C\n%readonly-tables\n%pic\n%global-table\n%define initializer-suffix ,0,0\n"
              "struct entry { int name; unsigned short code, schedule; };\n%%");
    for (size_t i = 0; i < l.codes.size(); i++) {
        unsigned a = l.codes[i] - 1;
        std::printf("%c%c%c%c, %u, %u\n", 'a' + (a >> 12), 'a' + (a >> 8 & 15), 'a' + (a >> 4 & 15), 'a' + (a & 15), a, l.schedules[i]);
    }
}
