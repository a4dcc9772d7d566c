#ifndef STACK_H
#define STACK_H

#include <string>

// The most bytes of stack that a call of each function of glass.h took, ours and the yardstick's: a table, with a paragraph before it.
std::string stacks_of_calls();

#endif
