#ifndef PEERS_H
#define PEERS_H

#include "structure.h"

#include <vector>

// the structures beside ours and the yardstick's
std::vector<structure> peers();

#endif
