/* Cosvigle: a demangler for C++ symbols of the Itanium C++ ABI. This header is C99.
 *
 * What is proved: the calls that the library exports, if the Rattle toolchain has built it. Their contracts are in
 * crates/cosvigle_c of the sources. A library that was built as plain Rust has the same calls, and is only tested.
 * Three things in this header are C that nothing proves: the functions at its end that take NULL in place of a pointer,
 * cosvigle_string and cosvigle_cxa_demangle.
 *
 * What a caller must keep to, and nothing checks:
 * - Each pointer is valid for as many bytes as its length says, and aligned for its type.
 * - The memory that a call writes to (a text, *needed, a handle) overlaps nothing else that the call is given. No
 *   other thread touches what a call is given until it returns.
 * - malloc, realloc and free belong to the same allocator. malloc and realloc align a block to each power of two up to
 *   16 that divides its size: a block of 24 bytes to 8, and one of 32 bytes to 16.
 * - No call is made from a signal handler, or in the forked child of a process with threads.
 * - A handle begins as COSVIGLE_NONE, and only the calls change it. It is used in one call at a time, and with one
 *   copy of the library. It may be handed to another thread, if the two threads are synchronised by a lock, or by the
 *   start or the end of a thread. After it is copied, only one of the two is used and freed.
 * Calls share nothing except a handle. So threads with handles of their own may call at the same time.
 *
 * NULL: these pointers may be NULL: a text or symbol of length 0, memory of 0 bytes, needed, and the handle of
 * cosvigle_free. Any other NULL gives COSVIGLE_BAD_CALL, and cosvigle_kind and cosvigle_has_qualifiers return 0. This
 * holds for callers that include this header. The exported calls themselves, as a program reaches them by dlsym or from
 * another language, take no NULL.
 *
 * Memory: how much is taken to read a symbol is limited, by default to what each symbol of a program is far below, and
 * by cosvigle_limit to less. A text, which has at most a megabyte for a symbol, isn't counted.
 *
 * Compatibility: a patch version changes no call and no status. A minor version may add some. Before 1.0 a minor
 * version may also change or remove some, and from 1.0 on only a major version may. A version that does so has the next
 * number in its soname, which is libcosvigle.so.0 now. This number isn't the major version: 0.2.0 may have number 1.
 *
 * Stack: for the deepest symbols that are read, a call needs at most 512 KiB of its thread's stack, and for those of
 * the libraries in corpus/ of the sources at most 16 KiB. This is measured, and not proved.
 *
 * The proved library has no unwind tables: a backtrace that is taken inside a call ends there. */
#ifndef COSVIGLE_H
#define COSVIGLE_H

#include <stdbool.h>
#include <stddef.h>
#include <stdint.h>
#include <stdlib.h>
#include <string.h>

/* The version of this header. That of the library is cosvigle_version(). */
#define COSVIGLE_VERSION_MAJOR 0
#define COSVIGLE_VERSION_MINOR 1
#define COSVIGLE_VERSION_PATCH 0
#define COSVIGLE_VERSION (COSVIGLE_VERSION_MAJOR * 1000000 + COSVIGLE_VERSION_MINOR * 1000 + COSVIGLE_VERSION_PATCH)

#ifdef __cplusplus
extern "C" {
#endif

/* What a call returns. Treat a status that you don't know as an error, since a later version may have more. */
enum {
    COSVIGLE_OK = 0,        /* the text is written, and *needed is its length in bytes; without a text: all is done */
    COSVIGLE_NO_ANSWER = 1, /* the symbol isn't read, or has no such part; cosvigle_take: the handle keeps no text */
    COSVIGLE_NO_MEMORY = 2, /* an allocation failed */
    COSVIGLE_NO_ROOM = 3,   /* the text is longer than capacity: *needed is its length in bytes */
    COSVIGLE_NOT_UTF8 = 4,  /* the symbol as a whole isn't UTF-8, and isn't read */
    COSVIGLE_BAD_CALL = 5,  /* a pointer is NULL that must not be, or printing or part is none of those below */
    COSVIGLE_OVER_LIMIT = 6 /* the symbol needs more memory than the handle's limit */
};
/* out points to capacity bytes of memory of the caller. If a call with these parameters returns COSVIGLE_OK, the
 * text is at out, without a NUL. The bytes after the text are unchanged. With any other status nothing is written to
 * that memory, and *needed is 0 unless the status is COSVIGLE_NO_ROOM. */

/* What is printed for a symbol: a sum of at most one flag of each group. 0 is the declaration as c++filt prints it. */
enum {
    /* How much: the declaration, f<int>(int) without the return type of void f<int>(int), or the name alone, f<int>. */
    COSVIGLE_DECLARATION = 0,
    COSVIGLE_NO_RETURN = 1,
    COSVIGLE_NAME = 2,
    /* The style: that of c++filt; the same without writing out abbreviations, std::string, as c++filt -i and
     * __cxa_demangle of GCC have it; and that of LLVM. */
    COSVIGLE_GNU = 0,
    COSVIGLE_GNU_SHORT = 4,
    COSVIGLE_LLVM = 8,
    /* What begins with no prefix of a symbol is read as a type, as typeid(x).name() has it: int for i. */
    COSVIGLE_TYPES = 16
};

/* The parts of a symbol: of cosvigle_part. */
enum {
    COSVIGLE_BASE_NAME = 0,   /* the name without scopes and template arguments: bar of Foo::bar<int>(int) */
    COSVIGLE_CONTEXT = 1,     /* the scopes around it: Foo */
    COSVIGLE_PARAMETERS = 2,  /* the parameters of a function, in parentheses: (int) */
    COSVIGLE_RETURN_TYPE = 3  /* its return type, which only symbols of function templates have */
};

/* What a symbol stands for: of cosvigle_kind. */
enum {
    COSVIGLE_UNREAD = 0,   /* the symbol wasn't read */
    COSVIGLE_FUNCTION = 1, /* a function */
    COSVIGLE_DATA = 2,     /* data */
    COSVIGLE_SPECIAL = 3   /* what has a special name, such as a table, a thunk or a guard variable */
};

/* The version of the library: the major version times 1,000,000, the minor times 1,000, and the patch, added up. */
uint32_t cosvigle_version(void);

/* A demangler that keeps its memory from one symbol to the next, or none. */
typedef struct {
    void *at; /* private */
} cosvigle_handle;

/* A handle without a demangler: cosvigle_handle handle = COSVIGLE_NONE; */
#define COSVIGLE_NONE {NULL}

/* Writes what is printed for a symbol of len bytes to out, which has capacity bytes: foo(int) for _Z3fooi. A symbol
 * begins with _Z or __Z, or with ___Z or ____Z where it is that of a block's function. All that follows from a dot is a
 * suffix, which is printed in brackets: foo(int) [clone .cold]. What isn't read to its end has no text. The text is
 * UTF-8. After COSVIGLE_NO_ROOM, call again with more memory for the text.
 *
 * The handle keeps its own memory. A later symbol that needs no more memory makes no call of malloc. A handle without
 * a demangler gets one, but after COSVIGLE_NO_MEMORY, COSVIGLE_NOT_UTF8 and COSVIGLE_BAD_CALL it may still have none.
 * After any status the handle can be used again. */
int cosvigle_ask(cosvigle_handle *handle, uint32_t printing, const char *symbol, size_t len, char *out,
                 size_t capacity, size_t *needed);

/* Sets how many bytes of memory may be taken to read a symbol with this handle from now on; 256 bytes are counted for
 * each node of its tree. 0 is the default. A symbol that needs more gives COSVIGLE_OVER_LIMIT, and in a text it stays
 * as it is. The status is COSVIGLE_OK, or COSVIGLE_NO_MEMORY if the handle has no demangler and can't get one. */
int cosvigle_limit(cosvigle_handle *handle, size_t bytes);

/* Writes a part of the last symbol that cosvigle_ask was called for with this handle, in the style of printing. The
 * status is COSVIGLE_NO_ANSWER if the symbol has no such part or wasn't read, and if it is neither that of a function
 * nor that of data. The text is UTF-8 if cosvigle_ask has found a text. */
int cosvigle_part(cosvigle_handle *handle, uint32_t part, uint32_t printing, char *out, size_t capacity,
                  size_t *needed);

/* What that symbol stands for, which is no status: COSVIGLE_FUNCTION, COSVIGLE_DATA, COSVIGLE_SPECIAL, or
 * COSVIGLE_UNREAD if it wasn't read or there was none. */
int cosvigle_kind(cosvigle_handle *handle);

/* Whether that symbol is that of a member function with qualifiers, such as const or &&. */
bool cosvigle_has_qualifiers(cosvigle_handle *handle);

/* Writes a text with its symbols replaced by what is printed for them, as the program cosvigle does.
 *
 * A word is a maximal run of ASCII letters, digits, _, $ and dots. It has three parts: prefix characters, a symbol,
 * and the dots at its end. The prefix characters are one dot, one $, one __imp_, the name of a section with its dots,
 * as in .text._Z3foov, or nothing. The symbol is everything between them and the dots. With strip one more underscore
 * is in front of it, and is dropped. With COSVIGLE_TYPES a word that begins with no prefix of a symbol may be a type.
 * If something is printed for the symbol, the word becomes its prefix characters, the text and its dots. A word without
 * a symbol, or whose symbol isn't read or needs more memory than the limit, is kept. Bytes that are in no word are kept
 * too.
 *
 * The status is COSVIGLE_OK, COSVIGLE_NO_MEMORY, COSVIGLE_NO_ROOM or COSVIGLE_BAD_CALL. A call takes more than 128 KiB
 * of memory while it runs. So give it whole texts rather than single lines.
 *
 * After COSVIGLE_NO_ROOM the handle keeps the text that was made. To get it, call cosvigle_take with *needed bytes of
 * memory. The next call with this handle of cosvigle_replace, cosvigle_filter, cosvigle_new or cosvigle_free drops the
 * kept text, unless it is a bad call. The last symbol that the handle was asked for stays. */
int cosvigle_replace(cosvigle_handle *handle, uint32_t printing, bool strip, const char *text, size_t len, char *out,
                     size_t capacity, size_t *needed);

/* Writes lines, and replaces each line that is a symbol by what is printed for it, as cosvigle --lines does. Any other
 * line is unchanged. A line goes up to the next line feed, which is written too, or to the end. The statuses, and what
 * the handle keeps, are those of cosvigle_replace. */
int cosvigle_filter(cosvigle_handle *handle, uint32_t printing, const char *lines, size_t len, char *out,
                    size_t capacity, size_t *needed);

/* Writes the text that the handle keeps. The status is COSVIGLE_OK, and then the handle no longer keeps the text;
 * COSVIGLE_NO_ANSWER if the handle keeps none; or COSVIGLE_NO_ROOM, and then the handle still keeps it. */
int cosvigle_take(cosvigle_handle *handle, char *out, size_t capacity, size_t *needed);

/* Gives the handle a new demangler with the default limit, and frees what it had. The status is COSVIGLE_OK, or
 * COSVIGLE_NO_MEMORY, and then the handle has none. No text is written. No program has to call this first: the calls
 * make a demangler if the handle has none. */
int cosvigle_new(cosvigle_handle *handle);

/* Frees what the handle has. Afterwards the handle has no demangler, and can be used again. If it had none, nothing is
 * done. */
void cosvigle_free(cosvigle_handle *handle);

#ifdef __cplusplus
}
#endif

/* What follows is C, and is not proved. A macro gives each function cosvigle_..._checked the name of the call that it
 * makes. The function returns COSVIGLE_BAD_CALL for a NULL that must not be. In place of any other NULL it passes a
 * valid pointer to the call. */
#ifdef __cplusplus
#define COSVIGLE_INLINE inline
#define COSVIGLE_TEXT(at) static_cast<char *>(at)
#else
#define COSVIGLE_INLINE static inline
#define COSVIGLE_TEXT(at) ((char *)(at))
#endif

/* Whether a pointer and a length can't be a text or memory for one. */
COSVIGLE_INLINE bool cosvigle_is_bad(const void *at, size_t len) { return at == NULL && len != 0; }

COSVIGLE_INLINE int cosvigle_bad_call(size_t *needed) {
    if (needed != NULL) *needed = 0;
    return COSVIGLE_BAD_CALL;
}

COSVIGLE_INLINE int cosvigle_ask_checked(cosvigle_handle *handle, uint32_t printing, const char *symbol, size_t len,
                                         char *out, size_t capacity, size_t *needed) {
    char none = 0;
    size_t unused;
    if (handle == NULL || cosvigle_is_bad(symbol, len) || cosvigle_is_bad(out, capacity)) {
        return cosvigle_bad_call(needed);
    }
    return cosvigle_ask(handle, printing, symbol == NULL ? "" : symbol, len, out == NULL ? &none : out, capacity,
                        needed == NULL ? &unused : needed);
}

COSVIGLE_INLINE int cosvigle_limit_checked(cosvigle_handle *handle, size_t bytes) {
    return handle == NULL ? COSVIGLE_BAD_CALL : cosvigle_limit(handle, bytes);
}

COSVIGLE_INLINE int cosvigle_part_checked(cosvigle_handle *handle, uint32_t part, uint32_t printing, char *out,
                                          size_t capacity, size_t *needed) {
    char none = 0;
    size_t unused;
    if (handle == NULL || cosvigle_is_bad(out, capacity)) return cosvigle_bad_call(needed);
    return cosvigle_part(handle, part, printing, out == NULL ? &none : out, capacity,
                         needed == NULL ? &unused : needed);
}

COSVIGLE_INLINE int cosvigle_kind_checked(cosvigle_handle *handle) {
    return handle == NULL ? COSVIGLE_UNREAD : cosvigle_kind(handle);
}

COSVIGLE_INLINE bool cosvigle_has_qualifiers_checked(cosvigle_handle *handle) {
    return handle != NULL && cosvigle_has_qualifiers(handle);
}

COSVIGLE_INLINE int cosvigle_replace_checked(cosvigle_handle *handle, uint32_t printing, bool strip, const char *text,
                                             size_t len, char *out, size_t capacity, size_t *needed) {
    char none = 0;
    size_t unused;
    if (handle == NULL || cosvigle_is_bad(text, len) || cosvigle_is_bad(out, capacity)) {
        return cosvigle_bad_call(needed);
    }
    return cosvigle_replace(handle, printing, strip, text == NULL ? "" : text, len, out == NULL ? &none : out,
                            capacity, needed == NULL ? &unused : needed);
}

COSVIGLE_INLINE int cosvigle_filter_checked(cosvigle_handle *handle, uint32_t printing, const char *lines, size_t len,
                                            char *out, size_t capacity, size_t *needed) {
    char none = 0;
    size_t unused;
    if (handle == NULL || cosvigle_is_bad(lines, len) || cosvigle_is_bad(out, capacity)) {
        return cosvigle_bad_call(needed);
    }
    return cosvigle_filter(handle, printing, lines == NULL ? "" : lines, len, out == NULL ? &none : out, capacity,
                           needed == NULL ? &unused : needed);
}

COSVIGLE_INLINE int cosvigle_take_checked(cosvigle_handle *handle, char *out, size_t capacity, size_t *needed) {
    char none = 0;
    size_t unused;
    if (handle == NULL || cosvigle_is_bad(out, capacity)) return cosvigle_bad_call(needed);
    return cosvigle_take(handle, out == NULL ? &none : out, capacity, needed == NULL ? &unused : needed);
}

COSVIGLE_INLINE int cosvigle_new_checked(cosvigle_handle *handle) {
    return handle == NULL ? COSVIGLE_BAD_CALL : cosvigle_new(handle);
}

COSVIGLE_INLINE void cosvigle_free_checked(cosvigle_handle *handle) {
    if (handle != NULL) cosvigle_free(handle);
}

#define cosvigle_ask cosvigle_ask_checked
#define cosvigle_limit cosvigle_limit_checked
#define cosvigle_part cosvigle_part_checked
#define cosvigle_kind cosvigle_kind_checked
#define cosvigle_has_qualifiers cosvigle_has_qualifiers_checked
#define cosvigle_replace cosvigle_replace_checked
#define cosvigle_filter cosvigle_filter_checked
#define cosvigle_take cosvigle_take_checked
#define cosvigle_new cosvigle_new_checked
#define cosvigle_free cosvigle_free_checked

/* Asks for a symbol, whose text goes to memory of malloc with a NUL after it. *text is that memory, which has *room
 * bytes. It may be NULL, and then *room is 0. If it is too small, it is freed once the text is in larger memory of
 * malloc, and *text and *room become those of that. The status is that of cosvigle_ask. If it isn't COSVIGLE_OK, *text
 * and *room are unchanged. */
COSVIGLE_INLINE int cosvigle_ask_growing(uint32_t printing, const char *symbol, char **text, size_t *room) {
    cosvigle_handle handle = COSVIGLE_NONE;
    const size_t len = strlen(symbol);
    size_t needed = 0;
    int status = cosvigle_ask(&handle, printing, symbol, len, *text, *room == 0 ? 0 : *room - 1, &needed);
    if (status == COSVIGLE_NO_ROOM || (status == COSVIGLE_OK && *room == 0)) {
        const size_t larger = needed + 1;
        char *at = COSVIGLE_TEXT(malloc(larger));
        status = at == NULL ? COSVIGLE_NO_MEMORY
                            : cosvigle_ask(&handle, printing, symbol, len, at, larger - 1, &needed);
        if (status == COSVIGLE_OK) {
            free(*text);
            *text = at;
            *room = larger;
        } else {
            free(at);
        }
    }
    cosvigle_free(&handle);
    if (status == COSVIGLE_OK) (*text)[needed] = 0;
    return status;
}

/* Returns the declaration of a symbol, as c++filt prints it. Both texts end in a NUL. The declaration is in memory of
 * malloc, and the caller frees it by free. The result is NULL if the symbol is NULL, isn't read or isn't UTF-8, or if
 * an allocation fails. */
COSVIGLE_INLINE char *cosvigle_string(const char *symbol) {
    char *text = NULL;
    size_t room = 0;
    if (symbol != NULL) (void)cosvigle_ask_growing(0, symbol, &text, &room);
    return text;
}

/* What __cxa_demangle of GCC's library for C++ does, with the same parameters. Returns the declaration of a symbol, in
 * the style of c++filt -i, with a NUL after it. What begins with no prefix of a symbol is read as a type.
 *
 * buffer is memory of malloc, of *length bytes, where the declaration is written. If it is too small, it is freed once
 * the declaration is in larger memory of malloc, which is returned, and *length becomes the size of that. buffer may be
 * NULL; then the result is new memory of malloc, and length may be NULL too.
 *
 * *status, if status isn't NULL, is 0 if the declaration is returned, -1 if an allocation failed, -2 if mangled isn't
 * read, and -3 if mangled is NULL, or if length is NULL and buffer isn't. Unless it is 0 the result is NULL, and buffer
 * and *length are unchanged. */
COSVIGLE_INLINE char *cosvigle_cxa_demangle(const char *mangled, char *buffer, size_t *length, int *status) {
    char *text = buffer;
    size_t room = buffer == NULL || length == NULL ? 0 : *length;
    int unused, asked;
    if (status == NULL) status = &unused;
    *status = -3;
    if (mangled == NULL || (buffer != NULL && length == NULL)) return NULL;
    asked = cosvigle_ask_growing(COSVIGLE_GNU_SHORT | COSVIGLE_TYPES, mangled, &text, &room);
    *status = asked == COSVIGLE_OK ? 0 : asked == COSVIGLE_NO_MEMORY ? -1 : -2;
    if (asked != COSVIGLE_OK) return NULL;
    if (length != NULL) *length = room;
    return text;
}

#endif
