/* The test of the library. bench/c-library compiles it and runs `test WORK FILE.kmx ..`, where WORK is one of these:
 *
 * `play` reads the entries of a script from standard input, and prints the lines of its transcript.
 * `host` does so in as many fields as the entries open.
 * `answers` checks each result of each call.
 * `memory` plays with each allocation refused in turn.
 * `damage` opens the file with each byte changed, and plays it.
 * `threads` types in two fields on two threads.
 * `speed` measures what a key press costs. The name of the key may follow FILE.kmx. */
#include "curlewmetal.h"
#include <pthread.h>
#include <stdio.h>
#include <stdlib.h>
#include <string.h>
#include <time.h>

#define SIZE(a) (sizeof(a) / sizeof *(a))

#ifdef __cplusplus
static_assert(sizeof(curlew_field) == sizeof(void *) && sizeof(curlew_fault) == 12 && sizeof(curlew_edit) == 32, "sizes");
#else
_Static_assert(sizeof(curlew_field) == sizeof(void *) && sizeof(curlew_fault) == 12 && sizeof(curlew_edit) == 32, "sizes");
#endif

static uint8_t bytes[1 << 26];
static size_t size;
static int wrong;

static void is(int holds, const char *what) {
  if (!holds) { printf("wrong: %s\n", what); wrong++; }
}

static void read_file(const char *name) {
  FILE *file = fopen(name, "rb");
  if (!file) { printf("no file %s\n", name); exit(2); }
  size = fread(bytes, 1, sizeof bytes, file);
  fclose(file);
}

/* ---- the allocator: refuses one call if a test requests it */

static long refused_call = -1, calls, live;

#ifdef WRAPPED
#ifdef __cplusplus
extern "C" {
#endif
void *__real_malloc(size_t n);
void *__real_realloc(void *p, size_t n);
void __real_free(void *p);
void *__wrap_malloc(size_t n);
void *__wrap_realloc(void *p, size_t n);
void __wrap_free(void *p);
void *__wrap_malloc(size_t n) {
  if (calls++ == refused_call) return NULL;
  live++;
  return __real_malloc(n);
}
void *__wrap_realloc(void *p, size_t n) {
  if (calls++ == refused_call) return NULL;
  return __real_realloc(p, n);
}
void __wrap_free(void *p) {
  if (p) live--;
  __real_free(p);
}
#ifdef __cplusplus
}
#endif
#endif

/* ---- a transcript */

#define NAME 4096
#define FIELDS 64
#define UNKNOWN 100   /* not a result of the library: a script sets an option that the keyboard doesn't have, which has no effect */

static uint32_t room[1000100];
/* The fields of a script. Nobody types in the first field; the others start as copies of it. */
static curlew_field fields[FIELDS + 1];
static unsigned opened, turned, steps[FIELDS + 1], shown, failed;
/* The beginning of each line of a field: empty, or the number of the field if the script has many. */
static char mark[16];

static void print_characters(const uint32_t *text, size_t count) {
  if (count == 0) printf("-");
  for (size_t i = 0; i < count; i++) {
    if (i) printf(".");
    if (text[i] >= 0x90000000u) printf("k%04X", (unsigned)(text[i] - 0x90000000u));
    else if (text[i] >= 0x80000000u) printf("d%u", (unsigned)(text[i] - 0x80000000u));
    else printf("%04X", (unsigned)text[i]);
  }
}

static void print_changes(curlew_field *field) {
  uint32_t store, saved;
  for (size_t n = 0; curlew_change(field, n, &store, &saved) == CURLEW_OK; n++) {
    uint8_t name[1024];
    size_t length = 0, count = 0;
    is(curlew_option_name(field, store, name, sizeof name, &length) == CURLEW_OK, "the name of a change");
    is(curlew_option_value(field, store, saved, room, SIZE(room), &count) == CURLEW_OK, "the value of a change");
    printf("%s%s %.*s ", mark, saved ? "save" : "opt", (int)length, (const char *)name);
    print_characters(room, count);
    printf("\n");
  }
}

static void print_edit(const curlew_edit *edit) {
  printf(" del=%u ins=", (unsigned)edit->deleted);
  print_characters(room, edit->inserted);
  printf(" pass=%u beep=%u", (unsigned)edit->passed, (unsigned)edit->beeps);
}

static void print_step(curlew_field *field, const curlew_edit *edit) {
  is(curlew_inserted(field, room, SIZE(room)) == edit->inserted, "how much a step inserted");
  printf("%s%u", mark, steps[turned]);
  print_edit(edit);
  printf(" ctx=");
  print_characters(room, curlew_context(field, room, SIZE(room)));
  printf("\n");
  print_changes(field);
}

/* Prints the line of a script's step that had no effect. The library made no step, so its calls still describe the last one. */
static void print_nothing(curlew_field *field) {
  printf("%s%u del=0 ins=- pass=0 beep=0 ctx=", mark, steps[turned]);
  print_characters(room, curlew_context(field, room, SIZE(room)));
  printf("\n");
}

static void print_text(curlew_field *field) {
  printf("%stext ", mark);
  print_characters(room, curlew_text(field, 0, room, SIZE(room)));
  printf("|");
  print_characters(room, curlew_text(field, 1, room, SIZE(room)));
  printf("\n");
}

static unsigned read_number(void) {
  unsigned number = 0;
  if (scanf("%u", &number) != 1) exit(2);
  return number;
}

static size_t read_text(uint32_t *text, size_t most) {
  unsigned count = read_number(), c = 0;
  for (unsigned i = 0; i < count; i++) {
    if (scanf("%x", &c) != 1) exit(2);
    if (i < most) text[i] = c;
  }
  return count;
}

/* Reads a name: two hexadecimal digits for each byte. */
static size_t read_name(uint8_t *name) {
  static char word[2 * NAME + 1];
  unsigned byte = 0;
  if (scanf("%8192s", word) != 1) exit(2);
  size_t length = strlen(word) / 2;
  for (size_t i = 0; i < length; i++) {
    if (sscanf(word + 2 * i, "%2x", &byte) != 1) exit(2);
    name[i] = (uint8_t)byte;
  }
  return length;
}

/* Reads the name of a key and returns its code. The key is one that every keyboard has, or a custom key of this keyboard. */
static uint16_t read_key(curlew_field *field) {
  static uint8_t name[NAME];
  size_t length = read_name(name);
  uint16_t code = curlew_own_key_code(field, name, length), common = curlew_key_code(name, length);
  is(code != 0 && (common ? code == common : code >= 256), "the code of a key");
  return code;
}

/* What a call that had no effect leaves unchanged. */
typedef struct { size_t left, right, inserted, context; uint32_t items[64]; } state;

static state seen(curlew_field *field) {
  state now;
  memset(&now, 0, sizeof now);
  now.left = curlew_text(field, 0, room, 0);
  now.right = curlew_text(field, 1, room, 0);
  now.inserted = curlew_inserted(field, room, 0);
  now.context = curlew_context(field, now.items, SIZE(now.items));
  return now;
}

static uint32_t press(curlew_field *field, curlew_edit *edit) {
  uint16_t code = read_key(field), mods = (uint16_t)read_number();
  curlew_edit told = {0, 0, 0, 0, 0};
  uint32_t previewed = curlew_preview(field, code, mods, &told, room, SIZE(room));
  uint32_t answer = curlew_key(field, code, mods, edit);
  is(previewed == answer, "what a preview answers");
  if (answer == CURLEW_OK)
    is(told.deleted == edit->deleted && told.inserted == edit->inserted && told.passed == edit->passed, "a preview");
  return answer;
}

static uint32_t event(curlew_field *field, char kind, curlew_edit *edit) {
  static uint32_t text[4096];
  static uint8_t name[NAME];
  unsigned from, to;
  size_t length;
  uint32_t answer;
  switch (kind) {
    case 'k': return press(field, edit);
    case 'c': return curlew_caret(field, read_number());
    case 'e':
      from = read_number();
      to = read_number();
      return curlew_replace(field, from, to, text, read_text(text, SIZE(text)));
    case 'o':
      length = read_name(name);
      answer = curlew_set(field, name, length, text, read_text(text, SIZE(text)));
      return answer == CURLEW_NONE ? UNKNOWN : answer;
    default: exit(2);
  }
}

static uint32_t step(curlew_field *field, char kind) {
  curlew_edit edit = {0, 0, 0, 0, 0};
  state before = seen(field);
  uint32_t answer = event(field, kind, &edit);
  steps[turned]++;
  if (answer == CURLEW_OK) {
    print_step(field, &edit);
    return CURLEW_OK;
  }
  state after = seen(field);
  is(memcmp(&before, &after, sizeof before) == 0, "a field after a call that did nothing");
  if (answer != UNKNOWN) return answer;
  print_nothing(field);
  return CURLEW_OK;
}

static uint32_t show(curlew_field *field) {
  curlew_edit edit = {0, 0, 0, 0, 0};
  uint16_t code = read_key(field), mods = (uint16_t)read_number();
  uint32_t answer = curlew_preview(field, code, mods, &edit, room, SIZE(room));
  shown++;
  if (answer != CURLEW_OK) return answer;
  printf("%spreview", mark);
  print_edit(&edit);
  printf("\n");
  return CURLEW_OK;
}

/* Checks that the whole text is the text that a line of the script expects. */
static void expect(curlew_field *field) {
  static uint32_t text[4096];
  unsigned line = read_number();
  size_t count = read_text(text, SIZE(text)), left = curlew_text(field, 0, room, SIZE(room));
  size_t whole = left + curlew_text(field, 1, room + left, SIZE(room) - left);
  if (whole == count && memcmp(room, text, count * sizeof *text) == 0) return;
  failed++;
  printf("%sexpect failed line=%u\n", mark, line);
}

/* Selects a field of a script that has many. */
static void turn(unsigned number) {
  turned = number;
  sprintf(mark, "f%u ", number);
}

static uint32_t add_field(void) {
  uint32_t answer = curlew_copy(&fields[0], &fields[++opened]);
  turned = opened;
  return answer;
}

static uint32_t entry(char kind) {
  uint32_t answer = CURLEW_OK;
  switch (kind) {
    case 'n':
      answer = add_field();
      turn(opened);
      return answer;
    case 'f': turn(read_number()); return CURLEW_OK;
    case 'p': return show(&fields[turned]);
    case 'x': expect(&fields[turned]); return CURLEW_OK;
    default: return step(&fields[turned], kind);
  }
}

/* Returns the number of steps of all fields. */
static unsigned steps_of_all(void) {
  unsigned all = 0;
  for (unsigned i = 1; i <= opened; i++) all += steps[i];
  return all;
}

static void print_end(uint32_t answer) {
  if (answer != CURLEW_OK) {
    const char *code = answer == CURLEW_PLACE ? "E1" : answer == CURLEW_LENGTH ? "E2" : "unknown";
    printf("refused %s event %u\n", code, steps_of_all() + shown);
    return;
  }
  for (unsigned i = 1; i <= opened; i++) {
    if (mark[0]) turn(i);
    print_text(&fields[i]);
  }
  printf("end events=%u failed=%u\n", steps_of_all(), failed);
}

/* Plays the entries on standard input, in one field or in as many as they open. */
static void play(int many) {
  curlew_fault fault = {0, 0, 0};
  uint32_t answer = curlew_open(&fields[0], bytes, size, &fault);
  if (answer == CURLEW_REFUSED) {
    printf("refused V%02u at %u", (unsigned)fault.rule, (unsigned)fault.at);
    if (fault.rule == 14) printf(" code %02X", (unsigned)fault.unit);
    printf("\n");
    return;
  }
  if (answer == CURLEW_OK && !many) answer = add_field();
  char kind;
  while (answer == CURLEW_OK && scanf(" %c", &kind) == 1) answer = entry(kind);
  print_end(answer);
  for (unsigned i = 0; i <= opened; i++) curlew_close(&fields[i]);
}

/* A file with the custom keys T_new and U_0041. */
static const char own_keys[] =
  "KXTS\0\12\0\0\0\0\0\0\0\0\0\0\0\0\0\0\0\0\0\0\1\0\0\0\1\0\0\0"
  "@\0\0\0L\0\0\0\377\377\377\377\0\0\0\0\0\0\0\0\0\0\0\0\0\0\0\0\0\0\0\0"
  "\42\0\0\0\0\0\0\0x\0\0\0\222\0\0\0d\0\0\0\0\0\0\0\0\0\0\0\1\0\0\0"
  "\1\0\0\0\0\1\0\0\1\0\0\0\0@\0\0\226\0\0\0\0\0\0\0T\0_\0n\0e\0"
  "w\0 \0U\0_\0000\0000\0004\0001\0\0\0g\0\0\0x\0\0";

static uint16_t own_code(curlew_field *field, const char *name) {
  return curlew_own_key_code(field, (const uint8_t *)name, strlen(name));
}

static void key_codes(void) {
  curlew_field field = {0};
  curlew_fault fault = {9, 9, 9};
  curlew_edit edit;
  is(own_code(&field, "K_A") == 0 && own_code(&field, "T_new") == 0, "codes of a closed field");
  is(curlew_open(&field, (const uint8_t *)own_keys, sizeof own_keys, &fault) == CURLEW_OK, "a file with own keys");
  is(own_code(&field, "T_new") == 256 && own_code(&field, "U_0041") == 257, "the codes of own keys");
  is(own_code(&field, "t_NEW") == 256 && own_code(&field, "k_a") == 65 && own_code(&field, "K_A") == 65, "codes without case");
  is(own_code(&field, "T_ne") == 0 && own_code(&field, "T_new U_0041") == 0 && own_code(&field, "") == 0, "names of no key");
  is(curlew_key_code((const uint8_t *)"T_new", 5) == 0, "an own key isn't one of all");
  is(curlew_key(&field, 256, 0, &edit) == CURLEW_OK && curlew_text(&field, 0, room, 9) == 1 && room[0] == 'x', "an own key");
  is(own_code(&field, "T_new") == 256, "the same code behind a key");
  curlew_close(&field);
}

/* ---- the results */

/* The stores of a field: the layer and the platform are the last two, and the last options. */
static void stores(curlew_field *field) {
  uint8_t name[16];
  size_t whole = 9, options = curlew_options(field, room, SIZE(room));
  uint32_t count = curlew_store_count(field);
  is(count >= 2 && options >= 2 && options <= count, "the stores and the options");
  is(room[options - 2] == count - 2 && room[options - 1] == count - 1, "the last options");
  for (size_t n = 1; n < options; n++) is(room[n - 1] < room[n], "the options rise");
  is(curlew_option_name(field, count - 1, name, sizeof name, &whole) == CURLEW_OK && whole == 9, "the platform's name");
  is(!memcmp(name, "&platform", 9), "the platform's name as bytes");
  whole = 7;
  is(curlew_option_name(field, count, name, sizeof name, &whole) == CURLEW_NONE && whole == 7, "the name of no store");
  is(curlew_option_value(field, count, 0, room, 9, &whole) == CURLEW_NONE && whole == 7, "the value of no store");
}

/* curlew_before passes no character: the deadkey of K_QUOTE goes, in an empty text and with an e after the caret, and K_A inserts an
 * a without an accent. */
static void new_places(void) {
  curlew_field field = {0};
  curlew_fault fault = {9, 9, 9};
  curlew_edit edit;
  uint32_t e = 'e';
  for (size_t after = 0; after < 2; after++) {
    is(curlew_open(&field, bytes, size, &fault) == CURLEW_OK, "a file");
    is(curlew_replace(&field, 0, 0, &e, after) == CURLEW_OK && curlew_text(&field, 1, room, 9) == after, "what stands after");
    is(curlew_key(&field, 222, 0, &edit) == CURLEW_OK && curlew_context(&field, room, 9) == 1, "a deadkey");
    is(curlew_before(&field, &e, 0) == CURLEW_OK && curlew_context(&field, room, 9) == 0, "no deadkey at a new place");
    is(curlew_text(&field, 0, room, 9) == 0 && curlew_text(&field, 1, room, 9) == after, "the text of a new place");
    is(curlew_key(&field, 65, 0, &edit) == CURLEW_OK && curlew_inserted(&field, room, 9) == 1 && room[0] == 'a', "no accent");
  }
  curlew_close(&field);
}

static void answers(void) {
  curlew_field field = {0}, other = {0};
  curlew_fault fault = {9, 9, 9};
  curlew_edit edit = {9, 9, 9, 9, 9};
  uint32_t text[] = {'e', 0x1F600}, bad[] = {'a', 0xD800}, far_off[] = {0x110000}, store = 9, saved = 9;
  uint8_t utf8[8];
  size_t whole = 9;
  is(curlew_version() == CURLEW_VERSION, "the version");
  curlew_close(&field);
  is(curlew_key(&field, 65, 0, &edit) == CURLEW_CLOSED && edit.deleted == 9, "a key of a closed field");
  is(curlew_before(&field, text, 2) == CURLEW_CLOSED && curlew_copy(&field, &other) == CURLEW_CLOSED && !other.held, "closed");
  is(curlew_inserted(&field, room, 1) == 0 && curlew_option_name(&field, 0, utf8, 8, &whole) == CURLEW_CLOSED, "closed");
  is(curlew_store_count(&field) == 0 && curlew_options(&field, room, 9) == 0, "the stores of a closed field");
  is(curlew_open(&field, bytes, size / 2, &fault) == CURLEW_REFUSED && fault.rule != 9 && !field.held, "half a file");
  is(curlew_open(&field, bytes, size, &fault) == CURLEW_OK && field.held, "a file");
  is(curlew_before(&field, bad, 2) == CURLEW_CHARACTER && curlew_before(&field, far_off, 1) == CURLEW_CHARACTER, "no characters");
  is(curlew_text(&field, 0, room, 9) == 0, "an empty text");
  is(curlew_before(&field, text, 2) == CURLEW_OK && curlew_text(&field, 1, room, 9) == 0, "before nothing");
  room[1] = 7;
  is(curlew_text(&field, 0, room, 1) == 2 && room[0] == 'e' && room[1] == 7, "room that is too small");
  is(curlew_caret(&field, 3) == CURLEW_PLACE && curlew_caret(&field, 1) == CURLEW_OK, "the caret");
  is(curlew_before(&field, text + 1, 1) == CURLEW_OK && curlew_text(&field, 1, room, 9) == 1 && room[0] == 0x1F600, "what stands after");
  is(curlew_text(&field, 0, room, 9) == 1 && room[0] == 0x1F600, "what stands before");
  is(curlew_before(&field, text, 0) == CURLEW_OK && curlew_text(&field, 0, room, 9) == 0, "nothing before");
  is(curlew_before(&field, text, 1) == CURLEW_OK && curlew_text(&field, 0, room, 9) == 1 && room[0] == 'e', "before, where nothing stood");
  is(curlew_text(&field, 1, room, 9) == 1 && room[0] == 0x1F600, "what still stands after");
  is(curlew_replace(&field, 1, 0, text, 1) == CURLEW_PLACE && curlew_replace(&field, 0, 9, text, 1) == CURLEW_PLACE, "places");
  is(curlew_replace(&field, 0, 2, bad, 2) == CURLEW_CHARACTER && curlew_text(&field, 0, room, 9) == 1, "a replacement refused");
  is(curlew_set(&field, (const uint8_t *)"no such option", 14, text, 1) == CURLEW_NONE, "no option");
  is(curlew_set(&field, (const uint8_t *)"&LAYER", 6, bad, 2) == CURLEW_CHARACTER, "an option's value");
  is(curlew_set(&field, (const uint8_t *)"&LAYER", 6, text, 1) == CURLEW_OK, "the layer");
  is(curlew_change(&field, 0, &store, &saved) == CURLEW_OK && saved == 0, "a change");
  is(curlew_option_value(&field, store, 0, room, 9, &whole) == CURLEW_OK && whole == 1 && room[0] == 'e', "the layer's value");
  is(curlew_option_name(&field, store, utf8, 2, &whole) == CURLEW_OK && whole == 6 && utf8[0] == '&', "the layer's name");
  is(curlew_change(&field, 99, &store, &saved) == CURLEW_NONE, "no such change");
  is(curlew_option_value(&field, 60000, 1, room, 9, &whole) == CURLEW_NONE, "no saved value");
  stores(&field);
  is(curlew_copy(&field, &other) == CURLEW_OK && other.held && other.held != field.held, "a copy");
  is(curlew_key(&field, 65, 0, &edit) == CURLEW_OK && curlew_text(&other, 0, room, 9) == 1, "a copy apart");
  is(curlew_key(&other, curlew_key_code((const uint8_t *)"K_A", 3), 0, &edit) == CURLEW_OK, "the copy's key");
  is(curlew_inserted(&other, room, 9) == edit.inserted && curlew_inserted_utf8(&other, utf8, 8) >= edit.inserted, "inserted");
  is(curlew_key_code((const uint8_t *)"K_A", 3) == 65 && curlew_key_code((const uint8_t *)"K_", 2) == 0, "key codes");
  is(curlew_copy(&field, &other) == CURLEW_OK && curlew_open(&other, bytes, size, &fault) == CURLEW_OK, "over an open field");
  curlew_close(&field);
  curlew_close(&other);
  curlew_close(&other);
  is(!field.held && !other.held, "closed fields");
  key_codes();
  new_places();
}

/* ---- memory */

static const uint16_t keys[] = {192, 222, 65, 69, 189, 189, 66, 8, 67, 192, 65, 13, 112};

/* Plays with one allocation refused, and repeats each call that returns CURLEW_MEMORY. Returns how many calls it repeated. */
static int played(char *out, long refuse) {
  curlew_field field = {0}, other = {0};
  curlew_fault fault;
  curlew_edit edit = {0, 0, 0, 0, 0};
  uint32_t text[] = {'a', 'b'};
  refused_call = refuse;
  calls = 0;
  int once = 0;
#define AGAIN(call) do { uint32_t got = (call); if (got == CURLEW_MEMORY) { once++; got = (call); } is(got == CURLEW_OK, #call); } while (0)
  AGAIN(curlew_open(&field, bytes, size, &fault));
  AGAIN(curlew_before(&field, text, 2));
  for (size_t i = 0; i < SIZE(keys); i++) {
    size_t before = curlew_text(&field, 0, room, 0);
    AGAIN(curlew_key(&field, keys[i], 0, &edit));
    size_t count = curlew_inserted(&field, room, 64);
    is(edit.passed || curlew_text(&field, 0, room + 64, 0) == before - edit.deleted + count, "lengths");
    out += sprintf(out, "%u/%u/%lu", (unsigned)edit.deleted, (unsigned)edit.passed, (unsigned long)count);
    for (size_t j = 0; j < count; j++) out += sprintf(out, ".%X", (unsigned)room[j]);
    out += sprintf(out, " ");
  }
  AGAIN(curlew_set(&field, (const uint8_t *)"&layer", 6, text, 2));
  AGAIN(curlew_preview(&field, 65, 0, &edit, room, 64));
  AGAIN(curlew_copy(&field, &other));
  AGAIN(curlew_replace(&other, 0, 1, text, 2));
  AGAIN(curlew_caret(&other, 0));
  AGAIN(curlew_before(&other, text, 1));
  sprintf(out, "%lu %lu", (unsigned long)curlew_text(&other, 0, room, 64), (unsigned long)curlew_text(&other, 1, room, 64));
  curlew_close(&field);
  curlew_close(&other);
  refused_call = -1;
  return once;
}

static void memory(void) {
  static char want[1 << 16], got[1 << 16];
  played(want, -1);
  long refused = 0;
  for (;; refused++) {
    live = 0;
    int once = played(got, refused);
    is(strcmp(want, got) == 0, "the same after an allocation was refused");
    is(live == 0, "each block freed");
    if (!once) break;
  }
  printf("%ld allocations refused in turn\n", refused);
}

static void damage(void) {
  long refused = 0, valid = 0;
  curlew_field field = {0};
  curlew_fault fault;
  curlew_edit edit;
  for (size_t at = 0; at < size; at++)
    for (int d = 1; d < 256; d += 85) {
      bytes[at] ^= (uint8_t)d;
      uint32_t answer = curlew_open(&field, bytes, size, &fault);
      if (answer == CURLEW_REFUSED) { refused++; is(fault.rule >= 1 && fault.rule <= 16 && fault.at <= size, "a fault"); }
      else { valid++; is(answer == CURLEW_OK, "a damaged file"); }
      for (size_t i = 0; answer == CURLEW_OK && i < SIZE(keys); i++) is(curlew_key(&field, keys[i], 16, &edit) == CURLEW_OK, "a key");
      curlew_close(&field);
      bytes[at] ^= (uint8_t)d;
    }
  printf("damaged files: %ld refused, %ld valid\n", refused, valid);
}

/* ---- threads and speed */

static void *typist(void *ends) {
  curlew_field field = {0};
  curlew_fault fault;
  curlew_edit edit;
  size_t sum = 0;
  if (curlew_open(&field, bytes, size, &fault) == CURLEW_OK)
    for (int i = 0; i < 20000; i++)
      if (curlew_key(&field, keys[(size_t)i % SIZE(keys)], 0, &edit) == CURLEW_OK) sum = sum * 31 + edit.deleted + 7 * edit.inserted;
  curlew_close(&field);
  *(size_t *)ends = sum;
  return NULL;
}

static void threads(void) {
  size_t sums[3] = {1, 2, 3};
  pthread_t thread[2];
  for (int i = 0; i < 2; i++) if (pthread_create(&thread[i], NULL, typist, &sums[i])) exit(2);
  for (int i = 0; i < 2; i++) pthread_join(thread[i], NULL);
  typist(&sums[2]);
  is(sums[0] == sums[2] && sums[1] == sums[2], "the same on each thread");
}

static double now(void) {
  struct timespec t;
  clock_gettime(CLOCK_PROCESS_CPUTIME_ID, &t);
  return (double)t.tv_sec * 1e9 + (double)t.tv_nsec;
}

static void least(double *of, double start, double count) {
  double took = (now() - start) / count;
  if (took < *of) *of = took;
}

/* Reads the text before the caret from standard input. */
static size_t read_before(uint32_t *text, size_t most) {
  size_t count = 0;
  unsigned c;
  while (count < most && scanf("%x", &c) == 1) text[count++] = c;
  return count;
}

/* Prints the least times of ten runs, in nanoseconds: of a key press with the characters that it inserts, of a curlew_before with 64
 * characters, and of a copy; and the time of one opening. The key has the given name, and is pressed after the text on standard
 * input. Without a name, A and backspace are pressed in turn. */
static void speed(const char *name) {
  static uint32_t begun[1000000];
  curlew_field field = {0}, other = {0};
  curlew_fault fault;
  curlew_edit edit;
  uint32_t text[64];
  uint16_t pair[2] = {65, 8};
  double key = 1e18, told = 1e18, copy = 1e18, open = 1e18, start = now();
  size_t count = name ? read_before(begun, SIZE(begun)) : 0;
  is(curlew_open(&field, bytes, size, &fault) == CURLEW_OK, "a file");
  least(&open, start, 1);
  if (name) pair[0] = pair[1] = own_code(&field, name);
  is(pair[0] != 0, "the code of the key");
  for (int i = 0; i < 64; i++) text[i] = (uint32_t)('a' + i % 26);
  for (int run = 0; run < 10; run++) {
    is(curlew_before(&field, begun, count) == CURLEW_OK, "the text before the keys");
    start = now();
    for (int i = 0; i < 100000; i++) {
      is(curlew_key(&field, pair[i & 1], 0, &edit) == CURLEW_OK, "a key");
      curlew_inserted(&field, room, 64);
    }
    least(&key, start, 1e5);
    is(curlew_before(&field, text, 64) == CURLEW_OK, "a text");
    start = now();
    for (int i = 0; i < 100000; i++) is(curlew_before(&field, text, 64) == CURLEW_OK, "a text");
    least(&told, start, 1e5);
    start = now();
    for (int i = 0; i < 1000; i++) is(curlew_copy(&field, &other) == CURLEW_OK, "a copy");
    least(&copy, start, 1e3);
  }
  printf("key %.0f ns, before %.0f ns, copy %.0f ns, open %.0f ns\n", key, told, copy, open);
  curlew_close(&field);
  curlew_close(&other);
}

int main(int words, char **word) {
  const char *work = words > 2 ? word[1] : "";
  if (words > 2) read_file(word[2]);
  if (!strcmp(work, "play")) play(0);
  else if (!strcmp(work, "host")) play(1);
  else if (!strcmp(work, "answers")) answers();
  else if (!strcmp(work, "memory")) memory();
  else if (!strcmp(work, "damage")) damage();
  else if (!strcmp(work, "threads")) threads();
  else if (!strcmp(work, "speed")) speed(words > 3 ? word[3] : NULL);
  else return 2;
  return wrong != 0;
}
