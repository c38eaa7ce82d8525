#include "bpfagent_program.h"
