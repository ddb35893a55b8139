/* What htslib does with the same bytes, for bench. oracle/build compiles it where libhts and its header files are there. */
#include <htslib/sam.h>

/* Parses a header with all of its lines and fills the table of references; NULL where htslib refuses it. */
sam_hdr_t *bench_hts_parse(const char *text, size_t length) {
    sam_hdr_t *header = sam_hdr_parse(length, text);
    if (header && sam_hdr_nref(header) < 0) {
        sam_hdr_destroy(header);
        return NULL;
    }
    return header;
}

/* Writes its text anew, from the parsed lines, and tells how long it is. */
size_t bench_hts_write(sam_hdr_t *header) { return sam_hdr_str(header) ? sam_hdr_length(header) : 0; }

void bench_hts_destroy(sam_hdr_t *header) { sam_hdr_destroy(header); }

const char *bench_hts_version(void) { return hts_version(); }
