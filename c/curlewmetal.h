/* curlewmetal.h: opens compiled Keyman keyboards (.kmx files) and types with them.
 *
 * Ownership. A curlew_field is yours; what it points to belongs to the library. Set a field to {0} before its first call, never
 * copy it by =, and release it with curlew_close. The bytes of the keyboard file are yours: keep them, unchanged, until every field
 * over them is closed. The library copies texts into your buffers, and keeps no pointer of yours except the pointer to the file.
 *
 * Pointers. Never pass a null pointer, not even for an empty text or buffer. A pointer that is followed by a `count` or `size` must
 * point to at least that many elements. Two arguments of one call must not overlap.
 *
 * Buffers. A call that fills a buffer writes as much as fits and reports the full length, as its result or in `whole`. If the full
 * length is larger than the buffer, call again with a larger buffer. The rest of a larger buffer is unchanged.
 *
 * Threads. The library has no global variables. Make only one call at a time for each field, on the thread that opened it. A copy
 * belongs to the thread of the field that it was copied from. Fields from separate curlew_open calls are independent. Don't call the
 * library from a signal handler, or from a forked child of a process with threads.
 *
 * Memory comes from malloc, realloc and free. No call aborts, throws, prints, locks, waits, or reads a file from disk.
 *
 * Characters are Unicode code points. Positions count characters from the start of the whole text.
 *
 * Steps. A step is a call of curlew_key, curlew_before, curlew_caret, curlew_replace or curlew_set that returned CURLEW_OK.
 * curlew_inserted, curlew_inserted_utf8 and curlew_change describe the last step of their field. */
#ifndef CURLEWMETAL_H
#define CURLEWMETAL_H

#include <stddef.h>
#include <stdint.h>

#ifdef __cplusplus
extern "C" {
#endif

/* A text field with its keyboard. The field is not open if `held` is null. */
typedef struct { void *held; } curlew_field;

/* The fault of a file: the rule that the file breaks (14 means V14), the byte offset of the fault, and the code that V14 names,
 * or 0 for another rule. */
typedef struct { uint32_t rule, at, unit; } curlew_fault;

/* The edit of a key press. It first deletes `deleted` characters before the caret, then inserts `inserted` characters there. */
typedef struct {
  uint32_t deleted;
  uint32_t passed;   /* 1 if the keyboard has nothing for this key, so that the application does what the key does; otherwise 0 */
  uint32_t beeps;
  size_t inserted;   /* the number of inserted characters: see curlew_inserted */
  size_t changes;    /* the number of option values that changed: see curlew_change */
} curlew_edit;

/* The results of calls. After every result except CURLEW_OK, each field is unchanged, and so is everything that the call would have
 * written. The comment of each call lists its results in addition to CURLEW_OK, without CURLEW_. A call returns CLOSED exactly when
 * the field is not open; a call that returns a length or a code then returns 0. */
enum {
  CURLEW_OK = 0,
  CURLEW_REFUSED = 1,   /* the file is not a valid keyboard: see the fault */
  CURLEW_MEMORY = 2,    /* an allocation failed: the same call may succeed later */
  CURLEW_PLACE = 3,     /* a position is past the end of the text, or `to` is less than `from` */
  CURLEW_LENGTH = 4,    /* the text would have more than 1,000,000 characters, or has more than 995,000 before a key press */
  CURLEW_CLOSED = 5,    /* the field is not open */
  CURLEW_CHARACTER = 6, /* a number is not a character: it is a surrogate, or past U+10FFFF */
  CURLEW_NONE = 7       /* there is no such option, change or saved value */
};

/* The version of this header: 10,000 for each major, 100 for each minor and 1 for each patch number. */
#define CURLEW_VERSION 10000

/* Returns the CURLEW_VERSION of the header that the library was built for. */
uint32_t curlew_version(void);

/* Opens a file with an empty text, and closes what was open in the field. REFUSED, the only result that writes the fault; MEMORY. */
uint32_t curlew_open(curlew_field *field, const uint8_t *file, size_t size, curlew_fault *fault);
/* Makes `other` a field over the same file with the same text and options, and closes what was open there. Doesn't read the file.
 * MEMORY, CLOSED. */
uint32_t curlew_copy(curlew_field *field, curlew_field *other);
/* Closes a field. The field need not be open. */
void curlew_close(curlew_field *field);

/* Processes a key press (key down). `code` is a Windows key code (see curlew_key_code), or the code of a custom key (see
 * curlew_own_key_code). `mods` is the sum of left control 1, right control 2, left alt 4, right alt 8, shift 16 and caps lock 256;
 * other bits are ignored. LENGTH, MEMORY, CLOSED. */
uint32_t curlew_key(curlew_field *field, uint16_t code, uint16_t mods, curlew_edit *edit);
/* Reports what the key press would do, without doing it. Writes the characters that it would insert to the buffer; `changes` is 0.
 * LENGTH, MEMORY, CLOSED. */
uint32_t curlew_preview(curlew_field *field, uint16_t code, uint16_t mods, curlew_edit *edit,
                        uint32_t *room, size_t count);
/* Writes the characters that the last step inserted, as code points or as UTF-8. There are none if that step was not curlew_key.
 * Returns the full length. */
size_t curlew_inserted(curlew_field *field, uint32_t *room, size_t count);
size_t curlew_inserted_utf8(curlew_field *field, uint8_t *room, size_t size);

/* Sets the text before the caret; the text after it is unchanged. Deadkeys remain where the text around them does. Pass what you know
 * of the text, at least the last 64 characters if there are as many. Pass no characters for a new position, for instance after a
 * click: then the deadkeys go, unless the last 64 characters and deadkeys before the caret are all deadkeys. CHARACTER, LENGTH, MEMORY,
 * CLOSED. */
uint32_t curlew_before(curlew_field *field, const uint32_t *text, size_t count);
/* Moves the caret to a position. Doesn't allocate. PLACE, CLOSED. */
uint32_t curlew_caret(curlew_field *field, uint32_t place);
/* Replaces the characters between the positions `from` and `to` with a text. CHARACTER, PLACE, LENGTH, MEMORY, CLOSED. */
uint32_t curlew_replace(curlew_field *field, uint32_t from, uint32_t to, const uint32_t *text, size_t count);
/* Writes the text before the caret, or the text after it if `after` is not 0. Returns its full length. */
size_t curlew_text(curlew_field *field, uint32_t after, uint32_t *room, size_t count);
/* Writes the last 64 characters and deadkeys before the caret, or all if there are fewer. Deadkey n is 0x80000000 + n.
 * Returns their number. */
size_t curlew_context(curlew_field *field, uint32_t *room, size_t count);

/* Sets the current and the saved value of an option. The name is UTF-8, and compares without ASCII case. NONE, CHARACTER, MEMORY,
 * CLOSED. */
uint32_t curlew_set(curlew_field *field, const uint8_t *name, size_t size, const uint32_t *value, size_t count);
/* Reports the nth option value, from 0, that the last step changed: writes the number of its store, and whether it is the saved
 * value (1) or the current value (0). NONE, CLOSED. */
uint32_t curlew_change(curlew_field *field, size_t n, uint32_t *store, uint32_t *saved);
/* Returns the number of stores. Their numbers begin at 0, and the last two are the layer and the platform. */
uint32_t curlew_store_count(curlew_field *field);
/* Writes the numbers of the stores that are options, in rising order. Returns how many there are. */
size_t curlew_options(curlew_field *field, uint32_t *room, size_t count);
/* Writes the name of a store as UTF-8. The name is empty if the store has none. NONE if there is no such store; MEMORY, CLOSED. */
uint32_t curlew_option_name(curlew_field *field, uint32_t store, uint8_t *room, size_t size, size_t *whole);
/* Writes the current value of a store, or the saved value if `saved` is not 0. Deadkey n is 0x80000000 + n, and a virtual key is
 * 0x90000000 + its code. NONE if there is no such store, or if the saved value is asked for and none is saved; MEMORY, CLOSED. */
uint32_t curlew_option_value(curlew_field *field, uint32_t store, uint32_t saved, uint32_t *room, size_t count,
                             size_t *whole);

/* Returns the code of a key that every keyboard has, for instance 65 for K_A; 0 if no such key has this name. The name is ASCII, and
 * compares without case. */
uint16_t curlew_key_code(const uint8_t *name, size_t size);
/* Returns the code of a key in this field: the code of curlew_key_code, otherwise the code of a custom key of the keyboard, for
 * instance T_new or U_0041; 0 if the keyboard has no such key. Codes of custom keys start at 256, and are valid only for this file.
 * The name is UTF-8, and compares without ASCII case. */
uint16_t curlew_own_key_code(curlew_field *field, const uint8_t *name, size_t size);

#ifdef __cplusplus
}
#endif
#endif
