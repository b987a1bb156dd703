/* The calls on a loaded document, which gate.h has as inline functions, as functions that Rust can call. */
#include "gate.h"

size_t bench_document_bytes(void) {
    return sizeof(struct gate_document);
}

uint64_t bench_load(struct gate_document *loaded, const uint8_t *doc, size_t doc_len, uint64_t *figures) {
    return gate_load(loaded, doc, doc_len, figures);
}

uint64_t bench_ask_loaded(const struct gate_document *loaded, const uint8_t *doc, size_t doc_len, const uint8_t *query,
                          size_t query_len, uint64_t year, uint64_t day, uint64_t hour, uint8_t *out, size_t out_len,
                          uint64_t *figures) {
    return gate_ask_loaded(loaded, doc, doc_len, query, query_len, year, day, hour, out, out_len, figures);
}

uint64_t bench_measure_loaded(const struct gate_document *loaded, const uint8_t *doc, size_t doc_len, const uint8_t *query,
                              size_t query_len, uint64_t year, uint64_t day, uint64_t hour, uint64_t *figures) {
    return gate_measure_loaded(loaded, doc, doc_len, query, query_len, year, day, hour, figures);
}
