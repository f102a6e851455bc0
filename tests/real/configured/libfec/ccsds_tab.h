/* The tables that libfec's own gen_ccsds prints, and the calls that use them. */
#define char unsigned char
#include "tabs.h"
#undef char
void encode_rs_8(unsigned char *data, unsigned char *parity, int pad);
int decode_rs_8(unsigned char *data, int *eras_pos, int no_eras, int pad);
