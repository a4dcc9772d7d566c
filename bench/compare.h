#ifndef COMPARE_H
#define COMPARE_H

#include <string>

// Compares ours with the yardstick, as each compiler made it, on many inputs: every answer and all lent memory. Ends the program at the first
// difference. Gives what was compared, in a paragraph.
std::string compare_all();

#endif
