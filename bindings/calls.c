/* The functions of voxdag.h as symbols of libvoxdag.so, for languages that load a library while they run: there every one
 * of them is a function with a name, though in the header it is `static inline`. */
#include <stdbool.h>
#include <stddef.h>
#include <stdint.h>
#define static
#define inline
#include "voxdag.h"
