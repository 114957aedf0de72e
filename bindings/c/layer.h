/* What the files of the layer have in common (oxc_sourcemap.c, scopes.c). */
#ifndef SMAP_LAYER_H
#define SMAP_LAYER_H

#include "oxc_sourcemap.h"
#include "proved.h"

/* A pointer, or what stands for null. */
#define OR(at, own) ((at) ? (at) : (own))
/* What a proved call changes or frees, and what it reads: the address of a copy of the pointer, which is that call's alone. */
#define HANDLE(at) (&(proved_handle){ at })
#define LENT(at) (&(proved_lent){ at })
/* What a call reads that returns borrowed texts, by value. */
#define LOAN(at) ((proved_lent){ at })

#endif
