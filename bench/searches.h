#ifndef SEARCHES_H
#define SEARCHES_H

#include <string>

// Builds of the lists with the longest searches, for each of three primes, beside the plain search of the yardstick: tables, with paragraphs before them.
// Each list that the yardstick builds is compared; ends the program at the first difference.
std::string long_searches();

#endif
