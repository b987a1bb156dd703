/* How deep the calls go: each runs on a stack that was painted before, and the paint that is left is counted.
 *   stack check DOCUMENT | stack ask DOCUMENT QUERY | stack load DOCUMENT | stack loaded DOCUMENT QUERY | stack why DOCUMENT LINE
 *   stack why-loaded DOCUMENT LINE | stack import FILE | stack measure FILE
 * prints the outcome's number and the bytes of stack that were written */
#include <pthread.h>
#include <stdint.h>
#include <stdio.h>
#include <stdlib.h>
#include <string.h>
#include <sys/mman.h>

#include "../include/gate.h"

enum { ROOM = 4 << 20, PAINT = 0xa5 };
static const uint8_t table[] = "sub", label[] = "free";
static uint8_t doc[1 << 20], query[1 << 20], out[60021];
static size_t doc_len, query_len;
static uint64_t number, figures[5];
static struct gate_document held;

static size_t read_whole(const char *path, uint8_t *into, size_t room) {
    FILE *file = fopen(path, "rb");
    if (!file) { perror(path); exit(2); }
    size_t len = fread(into, 1, room, file);
    fclose(file);
    return len;
}
static void *nothing(void *unused) { return unused; }
static void *check(void *unused) { number = gate_check(doc, doc_len, figures); return unused; }
static void *ask(void *unused) {
    number = gate_ask(doc, doc_len, query, query_len, 2028, 366, 10, out, sizeof out, figures);
    return unused;
}
static void *load(void *unused) { number = gate_load(&held, doc, doc_len, figures); return unused; }
static void *ask_loaded(void *unused) {
    number = gate_ask_loaded(&held, doc, doc_len, query, query_len, 2028, 366, 10, out, sizeof out, figures);
    return unused;
}
static void *why(void *unused) { number = gate_why(doc, doc_len, query, query_len, out, figures); return unused; }
static void *why_loaded(void *unused) { number = gate_why_loaded(&held, doc, doc_len, query, query_len, out, figures); return unused; }
static void *import(void *unused) {
    number = gate_import(doc, doc_len, table, 3, label, 4, out, sizeof out, figures);
    return unused;
}
static void *measure_import(void *unused) {
    number = gate_measure_import(doc, doc_len, table, 3, label, 4, figures);
    return unused;
}
static void *(*called(const char *word))(void *) {
    if (!strcmp(word, "ask")) return ask;
    if (!strcmp(word, "load")) return load;
    if (!strcmp(word, "loaded")) return ask_loaded;
    if (!strcmp(word, "why")) return why;
    if (!strcmp(word, "why-loaded")) return why_loaded;
    if (!strcmp(word, "import")) return import;
    if (!strcmp(word, "measure")) return measure_import;
    return check;
}
static size_t written(void *(*call)(void *)) {
    uint8_t *stack = mmap(0, ROOM, PROT_READ | PROT_WRITE, MAP_PRIVATE | MAP_ANONYMOUS, -1, 0);
    memset(stack, PAINT, ROOM);
    pthread_attr_t attributes;
    pthread_t thread;
    pthread_attr_init(&attributes);
    pthread_attr_setstack(&attributes, stack, ROOM);
    pthread_create(&thread, &attributes, call, 0);
    pthread_join(thread, 0);
    size_t left = 0;
    while (left < ROOM && stack[left] == PAINT) left++;
    munmap(stack, ROOM);
    return ROOM - left;
}
int main(int count, char **words) {
    if (count < 3) return 2;
    doc_len = read_whole(words[2], doc, sizeof doc);
    if (count > 3) query_len = read_whole(words[3], query, sizeof query);
    gate_load(&held, doc, doc_len, figures);
    written(nothing);
    size_t thread_itself = written(nothing);
    size_t deepest = written(called(words[1]));
    printf("%s: %llu, %zu bytes of stack (a thread itself: %zu)\n", words[1], (unsigned long long)number, deepest - thread_itself, thread_itself);
    return 0;
}
