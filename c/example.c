/* A minimal input method. `example FILE.kmx` reads names of keys from standard input, one per line, for instance K_A, or T_new if the
 * keyboard has it. It prints the edit of each key press and the text before the caret. docs/C.md explains the loop. */
#include "curlewmetal.h"
#include <stdio.h>
#include <stdlib.h>
#include <string.h>

/* Returns the bytes of a file, or NULL. The program keeps them until it ends. */
static uint8_t *contents(const char *name, size_t *size) {
  FILE *file = fopen(name, "rb");
  if (!file) return NULL;
  uint8_t *bytes = NULL;
  size_t room = 0, got;
  *size = 0;
  do {
    uint8_t *more = (uint8_t *)realloc(bytes, room += 65536);
    if (!more) { free(bytes); fclose(file); return NULL; }
    bytes = more;
    *size += got = fread(bytes + *size, 1, room - *size, file);
  } while (got > 0);
  fclose(file);
  return bytes;
}

/* Prints the edit. An input method deletes and commits instead, and reports whether it handled the key. */
static void print_edit(curlew_field *field, const curlew_edit *edit) {
  uint8_t room[4 * 4096];
  size_t size = curlew_inserted_utf8(field, room, sizeof room);
  if (size > sizeof room) size = sizeof room;
  printf("deleted %u, inserted \"%.*s\"%s\n", (unsigned)edit->deleted, (int)size, (const char *)room,
         edit->passed ? ", passed" : "");
}

/* Prints the text before the caret. A real application keeps this text itself. */
static void print_text(curlew_field *field) {
  uint32_t room[80];
  size_t count = curlew_text(field, 0, room, 80);
  printf("text of %lu:", (unsigned long)count);
  for (size_t i = 0; i < count && i < 80; i++) printf(" U+%04X", (unsigned)room[i]);
  printf("\n");
}

int main(int words, char **word) {
  size_t size = 0;
  uint8_t *file = words == 2 ? contents(word[1], &size) : NULL;
  if (!file) { fprintf(stderr, "usage: example FILE.kmx <KEYS\n"); return 2; }
  curlew_field field = {0};
  curlew_fault fault = {0, 0, 0};
  uint32_t answer = curlew_open(&field, file, size, &fault);
  if (answer == CURLEW_REFUSED) printf("not a keyboard: V%02u at %u\n", (unsigned)fault.rule, (unsigned)fault.at);
  char line[80];
  while (answer == CURLEW_OK && fgets(line, sizeof line, stdin)) {
    line[strcspn(line, "\r\n")] = 0;
    uint16_t code = curlew_own_key_code(&field, (const uint8_t *)line, strlen(line));
    if (code == 0) { printf("no key: %s\n", line); continue; }
    curlew_edit edit;
    answer = curlew_key(&field, code, 0, &edit);
    if (answer != CURLEW_OK) break;
    print_edit(&field, &edit);
    print_text(&field);
  }
  if (answer != CURLEW_OK) fprintf(stderr, "answer %u\n", (unsigned)answer);
  curlew_close(&field);
  free(file);
  return answer == CURLEW_OK ? 0 : 1;
}
