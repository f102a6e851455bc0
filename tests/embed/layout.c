/* Where the fields of the header's structs lie: a line for each struct, its size and then the offset of each field. */
#include "geyserpan.h"
#include <stdio.h>

#define AT(type, field) printf(" %zu", offsetof(type, field))

int main(void)
{
    printf("terms %zu", sizeof(geyserpan_terms));
    AT(geyserpan_terms, turns), AT(geyserpan_terms, output), AT(geyserpan_terms, services), AT(geyserpan_terms, windows);
    printf("\nfacts %zu", sizeof(geyserpan_facts));
    AT(geyserpan_facts, budget), AT(geyserpan_facts, services), AT(geyserpan_facts, version), AT(geyserpan_facts, words);
    AT(geyserpan_facts, data_bytes), AT(geyserpan_facts, stack_pages), AT(geyserpan_facts, functions), AT(geyserpan_facts, depth), AT(geyserpan_facts, zero);
    printf("\nwhy %zu", sizeof(geyserpan_why));
    AT(geyserpan_why, number), AT(geyserpan_why, function), AT(geyserpan_why, address);
    printf("\nreport %zu", sizeof(geyserpan_report));
    AT(geyserpan_report, turns), AT(geyserpan_report, overflows), AT(geyserpan_report, underflows), AT(geyserpan_report, output);
    AT(geyserpan_report, referenced), AT(geyserpan_report, modified), AT(geyserpan_report, exit), AT(geyserpan_report, zero);
    printf("\ndone %zu", sizeof(geyserpan_done));
    AT(geyserpan_done, turns), AT(geyserpan_done, read), AT(geyserpan_done, written), AT(geyserpan_done, exit), AT(geyserpan_done, zero);
    printf("\nimage %zu\nrun %zu\nengine %zu\nblock %zu", sizeof(geyserpan_image), sizeof(geyserpan_run), sizeof(geyserpan_engine), sizeof(geyserpan_block));
    AT(geyserpan_block, ok), AT(geyserpan_block, at);
    printf("\n");
    return 0;
}
