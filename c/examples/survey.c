/* survey FILE: prints a summary of a message. The summary has the lowest limits with which the message is accepted. It
 * exits with 1 if the message is invalid, 2 on wrong usage, and 3 if the file cannot be read. */
#include "capn.h"
#include <stdio.h>

int main(int count, char **words) {
    static uint8_t bytes[(1 << 20) + 1]; /* one byte more than the longest message that is accepted */
    const capn_limits limits = CAPN_USUAL_LIMITS;
    if (count != 2) return 2;
    FILE *file = fopen(words[1], "rb");
    if (!file) return 3;
    const size_t size = fread(bytes, 1, sizeof bytes, file);
    const int is_read = !ferror(file); /* a read error is not the end of the file */
    fclose(file);
    if (!is_read) return 3;

    capn_figures figures;
    capn_report report;
    const capn_status status = capn_survey(CAPN_STREAM, bytes, size, &limits, &figures, &report);
    if (status != CAPN_OK) {
        char text[128];
        capn_refusal_text(status, &report, text, sizeof text);
        fprintf(stderr, "rejected: %s\n", text);
        return 1;
    }
    printf("%u words, %u segments\n", figures.words, figures.segments);
    printf("budget %u, depth %u, %u pointers followed\n", figures.paid, figures.depth, figures.visits);
    if (figures.has_capability) printf("the first capability is %u\n", figures.capability);
    else printf(figures.canonical ? "canonical\n" : "not canonical\n");
    return 0;
}
