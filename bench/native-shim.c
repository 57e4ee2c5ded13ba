/*
 * The proved library's engine for a machine that is not x86-64: compile.sh
 * compiles it by the x86-64 conventions to code for this machine.
 *
 * The library hands structs over as x86-64 does, whatever machine its module is
 * compiled for, so only a caller that does the same can call it. These
 * functions do, and can themselves be called from anywhere: numbers and
 * pointers are handed over by this machine's conventions. The one struct that
 * x86-64 hands over on the stack, the machine of an interrupted run, is by
 * then past Arm's eight registers too and lies where the library looks for it;
 * were it not so, the harness would stop, as the two sides would not agree.
 */
#define PROVED_LINKAGE
#include "proved.h"
