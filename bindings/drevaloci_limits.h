/* Sizes for callers of drevaloci.h. Written by tools/limits.py from crates/limits. */
#ifndef DREVALOCI_LIMITS_H
#define DREVALOCI_LIMITS_H

/* Bytes of the largest dossier. */
#define DREVALOCI_DOSSIER_BYTES (49152)

/* Numbers of a node's record. */
#define DREVALOCI_NODE_RECORD (4)

/* Numbers of a frame's record. */
#define DREVALOCI_FRAME_RECORD (3)

/* Numbers of a node store that is enough for every dossier. */
#define DREVALOCI_NODE_NUMBERS (4 * 4096)

/* Bytes of a hash store that is enough for every dossier. */
#define DREVALOCI_HASH_BYTES (49152)

/* Bytes of a cell store that is enough for every dossier. */
#define DREVALOCI_CELL_BYTES (262144 / 8)

/* Numbers of a frame store that is enough for every dossier. */
#define DREVALOCI_FRAME_NUMBERS (3 * 1024)

/* Bytes of an answer store that is enough for every dossier. */
#define DREVALOCI_ANSWER_BYTES (32768 / 8)

#endif
