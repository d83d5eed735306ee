// System calls that no kernel has: the program makes them, the emulator's plugin sees them.
#ifndef MARKS_H
#define MARKS_H

enum { MARK_OPEN = 18498, MARK_CLOSE };

#endif
