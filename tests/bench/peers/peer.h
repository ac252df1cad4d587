/* What a peer, ffmpeg or OpenColorIO, is given by main.c and what it gives. It is C and C++ alike, and so is main.c. */
#ifndef PEER_H
#define PEER_H

#include <stddef.h>

struct picture {
    int width, height;
    int bits;             /* of a code, raw or corrected: 8, which is a byte, or 16, which are two in this machine's order */
    size_t line_size;     /* the bytes of one line: three codes for each pixel, red, green and blue */
    unsigned char *codes; /* line by line, from the top */
};

enum kind { ONE_D = 1, THREE_D = 3 };

const char *peer_version(void);

/* Takes the table of a .cube file, to be used by linear interpolation in 1D and by tetrahedral in 3D, and the raw picture,
 * which stays where it is. */
void peer_prepare(const char *cube, enum kind kind, const struct picture *raw);

/* Corrects the raw picture once, which is what is measured. */
void peer_correct(void);

/* Where line y of the picture lies that was corrected last, until another line is asked for. */
const unsigned char *peer_line(int y);

/* Says what is wrong and ends the program, unless the condition holds. */
void demand(int holds, const char *what);

#endif
