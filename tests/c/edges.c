/* What cosvigle.h promises at the edges. Prints each promise that doesn't hold, then 'N passed, M failed'. If the
 * environment names an allocation that fails (refuse.c), each call is made, and again after COSVIGLE_NO_MEMORY. The
 * status is then 2 if a call had no memory, 0 if none, and 1 if a promise doesn't hold. */
#include <cosvigle.h>
#include <stdio.h>
#include <stdlib.h>
#include <string.h>

enum { ROOM = 96, GREAT = 5000000 };
static int passed, failed;

/* How many blocks of memory aren't freed, and how many allocations were made, where refuse.c counts them. */
extern long refuse_live(void) __attribute__((weak));
extern long refuse_made(void) __attribute__((weak));

static void holds(int is, const char *what) {
    if (is) passed++;
    else failed++, printf("edges: not so: %s\n", what);
}

/* One for all symbols. */
static cosvigle_handle handle = COSVIGLE_NONE;

/* What a call with this room must do: the status, and the text, or NULL if there is none. */
struct wanted {
    const char *what;
    int status;
    const char *text;
    size_t len;
};

/* The bytes before and after the room, which must stay, and the room. */
static char around[ROOM + 2];
static char *const room_at = around + 1;

static void clear(void) { memset(around, '#', sizeof around); }

/* Whether the call did what it must, with this much room. */
static void check(struct wanted wanted, int status, size_t needed) {
    const size_t written = wanted.status == COSVIGLE_OK ? wanted.len : 0;
    size_t at = written + 1;
    const int is_told = wanted.status == COSVIGLE_OK || wanted.status == COSVIGLE_NO_ROOM;
    holds(status == wanted.status, wanted.what);
    holds(needed == (is_told ? wanted.len : 0), "the length that is told");
    holds(written == 0 || memcmp(room_at, wanted.text, written) == 0, "the text that is written");
    while (at < sizeof around && around[at] == '#') at++;
    holds(at == sizeof around && around[0] == '#', "the bytes around it");
}

static struct wanted want(const char *what, int status, const char *text) {
    struct wanted it;
    it.what = what;
    it.status = status;
    it.text = text;
    it.len = text == NULL ? 0 : strlen(text);
    return it;
}

/* Asks for a symbol in a printing with so much room. */
static void ask_in(uint32_t printing, const char *symbol, size_t len, size_t room, int status, const char *answer) {
    size_t needed = 99;
    int got;
    clear();
    got = cosvigle_ask(&handle, printing, symbol, len, room_at, room, &needed);
    check(want(symbol, status, answer), got, needed);
}

static void ask(const char *symbol, size_t len, size_t room, int status, const char *answer) {
    ask_in(0, symbol, len, room, status, answer);
}

/* The declaration of a symbol that ends in a NUL. */
static void is(uint32_t printing, const char *symbol, const char *answer) {
    ask_in(printing, symbol, strlen(symbol), ROOM, answer == NULL ? COSVIGLE_NO_ANSWER : COSVIGLE_OK, answer);
}

/* What the handle keeps is this text, or none. It is asked for with no room, with a byte too few, and with enough. */
static void takes(const char *text) {
    const size_t len = text == NULL ? 0 : strlen(text);
    size_t needed = 99;
    int status;
    if (text != NULL) {
        clear();
        status = cosvigle_take(&handle, NULL, 0, &needed);
        check(want("no room for what is kept", COSVIGLE_NO_ROOM, text), status, needed);
        clear();
        status = cosvigle_take(&handle, room_at, len - 1, &needed);
        check(want("too little room for what is kept", COSVIGLE_NO_ROOM, text), status, needed);
        clear();
        status = cosvigle_take(&handle, room_at, len, &needed);
        check(want("what is kept", COSVIGLE_OK, text), status, needed);
    }
    needed = 99;
    clear();
    status = cosvigle_take(&handle, room_at, ROOM, &needed);
    check(want("nothing is kept", COSVIGLE_NO_ANSWER, NULL), status, needed);
}

enum call { FILTER, REPLACE, STRIP };

static int make(enum call call, const char *text, size_t len, char *into, size_t room, size_t *needed) {
    if (call == FILTER) return cosvigle_filter(&handle, 0, text, len, into, room, needed);
    return cosvigle_replace(&handle, 0, call == STRIP, text, len, into, room, needed);
}

/* The call makes this text of the one that is given: with room enough, with just enough, with a byte too few, and with
 * none. The handle then keeps it. */
static void makes(enum call call, const char *given, size_t len, const char *text) {
    const size_t made = strlen(text);
    size_t needed = 99;
    int status;
    is(0, "_ZTV1A", "vtable for A");
    clear();
    status = make(call, given, len, room_at, ROOM, &needed);
    check(want(given, COSVIGLE_OK, text), status, needed);
    clear();
    status = make(call, given, len, room_at, made, &needed);
    check(want("just enough room", COSVIGLE_OK, text), status, needed);
    takes(NULL);
    if (made == 0) return;
    clear();
    status = make(call, given, len, room_at, made - 1, &needed);
    check(want("a byte too few", COSVIGLE_NO_ROOM, text), status, needed);
    takes(text);
    clear();
    status = make(call, given, len, NULL, 0, &needed);
    check(want("no room", COSVIGLE_NO_ROOM, text), status, needed);
    holds(cosvigle_kind(&handle) == COSVIGLE_SPECIAL, "the last symbol stays");
    is(0, "_Z3foo", "foo");
    ask("_Z1\xff", 4, ROOM, COSVIGLE_NOT_UTF8, NULL);
    is(COSVIGLE_NAME, "_Z3fooi", "foo");
    holds(cosvigle_limit(&handle, 0) == COSVIGLE_OK, "the default limit");
    takes(text);
}

/* A text that is kept is dropped by the next call that may keep one, and by cosvigle_new and cosvigle_free. A bad call
 * drops nothing. */
static void drops(void) {
    size_t needed = 99;
    holds(make(REPLACE, "_Z3foo", 6, NULL, 0, &needed) == COSVIGLE_NO_ROOM, "a text is kept");
    holds(make(FILTER, "", 0, NULL, 0, &needed) == COSVIGLE_OK, "no line");
    takes(NULL);
    holds(make(FILTER, "_Z3foo", 6, NULL, 0, &needed) == COSVIGLE_NO_ROOM, "a text is kept");
    holds(make(REPLACE, "_Z3bar.", 7, NULL, 0, &needed) == COSVIGLE_NO_ROOM, "another is kept");
    holds(cosvigle_filter(&handle, 3, "", 0, NULL, 0, &needed) == COSVIGLE_BAD_CALL && needed == 0, "a bad call");
    needed = 99;
    holds(cosvigle_replace(&handle, 32, false, "", 0, NULL, 0, &needed) == COSVIGLE_BAD_CALL && needed == 0,
          "a bad call");
    takes("bar.");
    holds(make(FILTER, "_Z3foo", 6, NULL, 0, &needed) == COSVIGLE_NO_ROOM, "a text is kept");
    holds(cosvigle_new(&handle) == COSVIGLE_OK, "a new one");
    takes(NULL);
    holds(make(FILTER, "_Z3foo", 6, NULL, 0, &needed) == COSVIGLE_NO_ROOM, "a text is kept");
    cosvigle_free(&handle);
    takes(NULL);
    holds(handle.at == NULL, "taking makes no demangler");
}

/* Every number up to 40 as a printing: a sum of flags, with the text of _Z1fIiSsEvT_, or a bad call. */
static void printings(void) {
    static const char *const texts[] = {
        "void f<int, std::basic_string<char, std::char_traits<char>, std::allocator<char> > >(int)",
        "f<int, std::basic_string<char, std::char_traits<char>, std::allocator<char> > >(int)",
        "f<int, std::basic_string<char, std::char_traits<char>, std::allocator<char> > >",
        NULL,
        "void f<int, std::string>(int)",
        "f<int, std::string>(int)",
        "f<int, std::string>",
        NULL,
        "void f<int, std::string>(int)",
        "f<int, std::string>(int)",
        "f<int, std::string>",
    };
    static const uint32_t beyond[] = {64, 1u << 16, 1u << 31, 0xffffffffu};
    uint32_t printing;
    size_t needed, at;
    char text[128];
    is(0, "_Z3foo", "foo");
    for (printing = 0; printing < 40; printing++) {
        const char *right = printing % 16 < 11 && printing < 32 ? texts[printing % 16] : NULL;
        int status;
        needed = 99;
        memset(text, '#', sizeof text);
        status = cosvigle_ask(&handle, printing, "_Z1fIiSsEvT_", 12, text, sizeof text, &needed);
        if (right == NULL) holds(status == COSVIGLE_BAD_CALL && needed == 0 && text[0] == '#', "a bad printing");
        else holds(status == COSVIGLE_OK && needed == strlen(right) && memcmp(text, right, needed) == 0, right);
    }
    for (at = 0; at < sizeof beyond / sizeof *beyond; at++)
        holds(cosvigle_ask(&handle, beyond[at], "_Z3foo", 6, text, 9, &needed) == COSVIGLE_BAD_CALL, "unknown flags");
    /* A bad call comes before what isn't UTF-8, and changes nothing. */
    is(0, "_ZTV1A", "vtable for A");
    ask_in(3, "_Z1\xff", 4, ROOM, COSVIGLE_BAD_CALL, NULL);
    holds(cosvigle_kind(&handle) == COSVIGLE_SPECIAL, "the last symbol stays");
    /* In LLVM's style lists of arguments close without a space. */
    is(COSVIGLE_LLVM, "_ZNSt6vectorIS_IiEE4sizeEv", "std::vector<std::vector<int>>::size()");
    is(COSVIGLE_GNU, "_ZNSt6vectorIS_IiEE4sizeEv", "std::vector<std::vector<int> >::size()");
    is(COSVIGLE_TYPES, "i", "int");
    is(COSVIGLE_TYPES, "PFivE", "int (*)()");
    is(COSVIGLE_TYPES | COSVIGLE_LLVM | COSVIGLE_NAME, "Ss", "std::string");
    is(COSVIGLE_TYPES, "_Z3fooi", "foo(int)");
    is(COSVIGLE_TYPES, "_Z3foo_", NULL);
    is(COSVIGLE_TYPES, "", NULL);
    is(0, "i", NULL);
}

/* The parts of a symbol, in the order of their numbers, and what it stands for. Those that it doesn't have are NULL. */
static void parts(const char *symbol, int kind, bool qualified, const char *const texts[4]) {
    uint32_t part;
    char text[ROOM];
    size_t needed = 99;
    int status = cosvigle_ask(&handle, 0, symbol, strlen(symbol), text, ROOM, &needed);
    holds((status == COSVIGLE_OK) == (kind != COSVIGLE_UNREAD), symbol);
    holds(cosvigle_kind(&handle) == kind, "what it stands for");
    holds(cosvigle_has_qualifiers(&handle) == qualified, "whether it has qualifiers");
    for (part = 0; part < 4; part++) {
        const char *right = texts[part];
        const size_t len = right == NULL ? 0 : strlen(right);
        needed = 99;
        clear();
        status = cosvigle_part(&handle, part, COSVIGLE_GNU_SHORT, room_at, ROOM, &needed);
        check(want("a part", right == NULL ? COSVIGLE_NO_ANSWER : COSVIGLE_OK, right), status, needed);
        if (right == NULL) continue;
        clear();
        status = cosvigle_part(&handle, part, COSVIGLE_GNU_SHORT, room_at, len, &needed);
        check(want("just enough room", COSVIGLE_OK, right), status, needed);
        clear();
        status = cosvigle_part(&handle, part, COSVIGLE_GNU_SHORT, room_at, len - 1, &needed);
        check(want("a byte too few", COSVIGLE_NO_ROOM, right), status, needed);
    }
    for (; part < 8; part++) {
        needed = 99;
        clear();
        status = cosvigle_part(&handle, part, 0, room_at, ROOM, &needed);
        check(want("no such part", COSVIGLE_BAD_CALL, NULL), status, needed);
    }
    clear();
    status = cosvigle_part(&handle, COSVIGLE_BASE_NAME, 12, room_at, ROOM, &needed);
    check(want("no such style", COSVIGLE_BAD_CALL, NULL), status, needed);
}

static void all_parts(void) {
    static const char *const nothing[4] = {NULL, NULL, NULL, NULL};
    static const char *const member[4] = {"bar", "Foo", "(std::string)", "void"};
    static const char *const function[4] = {"foo", NULL, "()", NULL};
    static const char *const data[4] = {"x", "a::b", NULL, NULL};
    cosvigle_free(&handle);
    holds(cosvigle_kind(&handle) == COSVIGLE_UNREAD && !cosvigle_has_qualifiers(&handle), "no symbol");
    holds(cosvigle_part(&handle, 0, 0, NULL, 0, NULL) == COSVIGLE_NO_ANSWER, "no part of none");
    holds(handle.at == NULL, "asking for a part makes no demangler");
    parts("_ZNK3Foo3barIiEEvSs", COSVIGLE_FUNCTION, true, member);
    parts("_Z3foov", COSVIGLE_FUNCTION, false, function);
    parts("_ZN1a1b1xE", COSVIGLE_DATA, false, data);
    parts("_ZTV1A", COSVIGLE_SPECIAL, false, nothing);
    parts("_Z3foov", COSVIGLE_FUNCTION, false, function);
    parts("malloc", COSVIGLE_UNREAD, false, nothing);
    is(0, "_Z1fSs", "f(std::basic_string<char, std::char_traits<char>, std::allocator<char> >)");
}

/* Both calls make this text, with the flag for types too. */
static void makes_within(const char *given, const char *text) {
    size_t needed = 99;
    int status;
    clear();
    status = cosvigle_replace(&handle, 0, false, given, strlen(given), room_at, ROOM, &needed);
    check(want(given, COSVIGLE_OK, text), status, needed);
    /* In lines the whole line would have to be a symbol. */
    clear();
    status = cosvigle_filter(&handle, COSVIGLE_TYPES, given, strlen(given), room_at, ROOM, &needed);
    check(want(given, COSVIGLE_OK, given), status, needed);
}

/* A limit says that a symbol needs more memory, in texts the symbol stays, and the default limit comes back. */
static void limits(void) {
    static const char symbol[] = "_ZNSt6vectorIS_IS_IiEEE4sizeEv";
    size_t needed = 99;
    int status;
    cosvigle_free(&handle);
    holds(cosvigle_limit(&handle, 1) == COSVIGLE_OK && handle.at != NULL, "a limit makes a demangler");
    ask("_Z3fooi", 7, ROOM, COSVIGLE_OVER_LIMIT, NULL);
    holds(cosvigle_kind(&handle) == COSVIGLE_UNREAD, "nothing is read over the limit");
    ask_in(COSVIGLE_TYPES, "PFivE", 5, ROOM, COSVIGLE_OVER_LIMIT, NULL);
    ask("malloc", 6, ROOM, COSVIGLE_NO_ANSWER, NULL);
    makes_within("(_Z3fooi+0x1)", "(_Z3fooi+0x1)");
    holds(cosvigle_limit(&handle, 1000000) == COSVIGLE_OK, "more memory");
    is(0, symbol, "std::vector<std::vector<std::vector<int> > >::size()");
    makes_within("(_Z3fooi+0x1)", "(foo(int)+0x1)");
    holds(cosvigle_limit(&handle, 2000) == COSVIGLE_OK, "less memory");
    ask(symbol, sizeof symbol - 1, ROOM, COSVIGLE_OVER_LIMIT, NULL);
    is(0, "_Z3fooi", "foo(int)");
    holds(cosvigle_limit(&handle, 0) == COSVIGLE_OK, "the default limit");
    is(0, symbol, "std::vector<std::vector<std::vector<int> > >::size()");
    /* What a new demangler has is the default limit. */
    holds(cosvigle_limit(&handle, 1) == COSVIGLE_OK && cosvigle_new(&handle) == COSVIGLE_OK, "a new one");
    is(0, "_Z3fooi", "foo(int)");
    holds(cosvigle_limit(&handle, 1) == COSVIGLE_OK, "a limit");
    status = cosvigle_replace(&handle, 0, false, "_Z3foo", 6, NULL, 0, &needed);
    holds(status == COSVIGLE_NO_ROOM && needed == 6, "a text over the limit");
    holds(cosvigle_limit(&handle, 0) == COSVIGLE_OK, "the default limit");
    takes("_Z3foo");
}

/* NULL for a text of length 0, for no room, and for needed. Any other NULL is a bad call. */
static void nulls(void) {
    size_t needed = 99;
    char text[ROOM];
    cosvigle_free(NULL);
    holds(cosvigle_ask(&handle, 0, NULL, 0, NULL, 0, NULL) == COSVIGLE_NO_ANSWER, "no symbol");
    holds(cosvigle_filter(&handle, 0, NULL, 0, NULL, 0, NULL) == COSVIGLE_OK, "no line");
    holds(cosvigle_replace(&handle, 0, true, NULL, 0, NULL, 0, NULL) == COSVIGLE_OK, "no text");
    holds(cosvigle_take(&handle, NULL, 0, NULL) == COSVIGLE_NO_ANSWER, "nothing to take");
    holds(cosvigle_ask(&handle, 0, "_Z3fooi", 7, NULL, 0, &needed) == COSVIGLE_NO_ROOM && needed == 8, "no room");
    holds(cosvigle_part(&handle, 0, 0, NULL, 0, NULL) == COSVIGLE_NO_ROOM, "no room for a part");
    memset(text, '#', sizeof text);
    holds(cosvigle_part(&handle, 0, 0, text, ROOM, NULL) == COSVIGLE_OK && memcmp(text, "foo#", 4) == 0, "no needed");
    memset(text, '#', sizeof text);
    holds(cosvigle_ask(&handle, 0, "_Z3fooi", 7, text, ROOM, NULL) == COSVIGLE_OK && memcmp(text, "foo(int)#", 9) == 0,
          "no needed");
    holds(cosvigle_replace(&handle, 0, false, "_Z3foo", 6, NULL, 0, NULL) == COSVIGLE_NO_ROOM, "neither");
    memset(text, '#', sizeof text);
    holds(cosvigle_take(&handle, text, ROOM, NULL) == COSVIGLE_OK && memcmp(text, "foo#", 4) == 0, "it is taken");

    needed = 99;
    holds(cosvigle_ask(NULL, 0, "_Z3foo", 6, text, ROOM, &needed) == COSVIGLE_BAD_CALL && needed == 0, "no handle");
    holds(cosvigle_ask(&handle, 0, NULL, 1, text, ROOM, &needed) == COSVIGLE_BAD_CALL, "a symbol at NULL");
    holds(cosvigle_ask(&handle, 0, "_Z3foo", 6, NULL, 1, NULL) == COSVIGLE_BAD_CALL, "room at NULL");
    holds(cosvigle_limit(NULL, 0) == COSVIGLE_BAD_CALL, "no handle");
    holds(cosvigle_kind(NULL) == COSVIGLE_UNREAD && !cosvigle_has_qualifiers(NULL), "no handle");
    needed = 99;
    holds(cosvigle_part(NULL, 0, 0, text, ROOM, &needed) == COSVIGLE_BAD_CALL && needed == 0, "no handle");
    holds(cosvigle_part(&handle, 0, 0, NULL, 1, &needed) == COSVIGLE_BAD_CALL, "room at NULL");
    holds(cosvigle_filter(NULL, 0, "", 0, text, ROOM, &needed) == COSVIGLE_BAD_CALL, "no handle");
    holds(cosvigle_filter(&handle, 0, NULL, 1, text, ROOM, &needed) == COSVIGLE_BAD_CALL, "lines at NULL");
    holds(cosvigle_filter(&handle, 0, "", 0, NULL, 1, &needed) == COSVIGLE_BAD_CALL, "room at NULL");
    holds(cosvigle_replace(NULL, 0, false, "", 0, text, ROOM, &needed) == COSVIGLE_BAD_CALL, "no handle");
    holds(cosvigle_replace(&handle, 0, false, NULL, 1, text, ROOM, &needed) == COSVIGLE_BAD_CALL, "a text at NULL");
    holds(cosvigle_replace(&handle, 0, false, "", 0, NULL, 1, &needed) == COSVIGLE_BAD_CALL, "room at NULL");
    holds(cosvigle_take(NULL, text, ROOM, &needed) == COSVIGLE_BAD_CALL, "no handle");
    holds(cosvigle_take(&handle, NULL, 1, &needed) == COSVIGLE_BAD_CALL, "room at NULL");
    holds(cosvigle_new(NULL) == COSVIGLE_BAD_CALL, "no handle");
}

/* A text of one's own, which ends in a NUL. */
static void string(const char *symbol, const char *answer) {
    char *text = cosvigle_string(symbol);
    holds((text == NULL) == (answer == NULL), "whether there is a string");
    holds(text == NULL || strcmp(text, answer) == 0, "a string");
    free(text);
}

static void strings(void) {
    string("_ZN3Foo3barEv", "Foo::bar()");
    /* A declaration that is longer than its symbol. */
    string("_ZNSt6vectorIS_IiEE4sizeEv", "std::vector<std::vector<int> >::size()");
    string("_ZNSt6vectorIS_IS_IS_IiEEEE4sizeEv",
           "std::vector<std::vector<std::vector<std::vector<int> > > >::size()");
    string("malloc", NULL);
    string("i", NULL);
    string("", NULL);
    string(NULL, NULL);
    string("_Z1\xff", NULL);
}

/* cosvigle_cxa_demangle does what the ABI says of __cxa_demangle: what it returns, the status and the length. */
static void cxa(void) {
    static const char name[] = "std::vector<int>::size()";
    static const char symbol[] = "_ZNSt6vectorIiE4sizeEv";
    size_t length = 99;
    int status = 99;
    char *text = cosvigle_cxa_demangle(symbol, NULL, NULL, &status), *same;
    holds(text != NULL && strcmp(text, name) == 0 && status == 0, name);
    free(text);
    text = cosvigle_cxa_demangle(symbol, NULL, &length, NULL);
    holds(text != NULL && strcmp(text, name) == 0 && length == sizeof name, "the size of new memory");
    /* Memory that is just large enough is kept, and so is its size. */
    same = cosvigle_cxa_demangle(symbol, text, &length, &status);
    holds(same == text && status == 0 && length == sizeof name && strcmp(text, name) == 0, "memory that is enough");
    length = 100;
    free(text);
    text = malloc(length);
    if (text == NULL) exit(2);
    same = cosvigle_cxa_demangle("Ss", text, &length, &status);
    holds(same == text && status == 0 && length == 100 && strcmp(text, "std::string") == 0, "a type");
    /* One byte less isn't enough. */
    length = sizeof name - 1;
    text = cosvigle_cxa_demangle(symbol, text, &length, &status);
    holds(text != NULL && status == 0 && length == sizeof name && strcmp(text, name) == 0, "memory that grows");
    /* Without a declaration the memory stays the caller's. */
    memset(text, '#', 9);
    status = 99;
    holds(cosvigle_cxa_demangle("malloc", text, &length, &status) == NULL && status == -2, "no name");
    holds(length == sizeof name && memcmp(text, "#########", 9) == 0, "the memory stays");
    holds(cosvigle_cxa_demangle("_Z1\xff", text, &length, &status) == NULL && status == -2, "not UTF-8");
    holds(cosvigle_cxa_demangle("", text, &length, &status) == NULL && status == -2, "no byte");
    holds(cosvigle_cxa_demangle(NULL, text, &length, &status) == NULL && status == -3, "no symbol");
    status = 99;
    holds(cosvigle_cxa_demangle(symbol, text, NULL, &status) == NULL && status == -3, "no length");
    holds(cosvigle_cxa_demangle(NULL, NULL, NULL, NULL) == NULL, "nothing at all");
    free(text);
}

/* A symbol of 5 MB: a name of five million letters has no text, and neither has a suffix of as many. */
static void great(void) {
    char *symbol = malloc(GREAT), *answer = malloc(GREAT);
    size_t needed = 0, len = 1000000;
    if (symbol == NULL || answer == NULL) exit(2);
    memset(symbol, 'a', GREAT);
    memcpy(symbol, "_Z4999990", 9);
    holds(cosvigle_ask(&handle, 0, symbol, GREAT, answer, GREAT, &needed) == COSVIGLE_NO_ANSWER, "a long name");
    memcpy(symbol, "_Z3foov.a", 9);
    holds(cosvigle_ask(&handle, 0, symbol, GREAT, answer, GREAT, &needed) == COSVIGLE_NO_ANSWER, "a long suffix");
    holds(needed == 0, "no text of a long suffix");
    holds(cosvigle_ask(&handle, 0, symbol, len, answer, 9, &needed) == COSVIGLE_NO_ROOM, "a long text");
    holds(cosvigle_ask(&handle, 0, symbol, len, answer, GREAT, &needed) == COSVIGLE_OK, "it again");
    holds(needed == len + 7 && memcmp(answer, "foo() [clone .aaa", 17) == 0 && answer[needed - 1] == ']', "all of it");
    free(symbol);
    free(answer);
}

/* A block of lines that is longer than what the filter reads at once. It is made, and then taken where the capacity
 * was a byte too small. */
static void many(void) {
    enum { LINES = 50000, LINE = 8, NAME = 6 };
    char *block = malloc(LINES * LINE), *text = malloc(LINES * NAME);
    size_t needed = 0, at;
    int call, right;
    if (block == NULL || text == NULL) exit(2);
    for (at = 0; at < LINES; at++) memcpy(block + at * LINE, "_Z3foov\n", LINE);
    for (call = FILTER; call <= REPLACE; call++) {
        int status = make((enum call)call, block, LINES * LINE, text, LINES * NAME - 1, &needed);
        holds(status == COSVIGLE_NO_ROOM && needed == LINES * NAME, "a byte too few for many lines");
        memset(text, 0, LINES * NAME);
        status = cosvigle_take(&handle, text, LINES * NAME, &needed);
        holds(status == COSVIGLE_OK && needed == LINES * NAME, "many lines");
        for (right = 1, at = 0; at < LINES; at++) right &= memcmp(text + at * NAME, "foo()\n", NAME) == 0;
        holds(right, "the text of many lines");
    }
    free(block);
    free(text);
}

/* A handle is made, freed, and made again by a symbol; what it had before is freed. */
static void handles(void) {
    ask("_Z1\xff", 4, ROOM, COSVIGLE_NOT_UTF8, NULL);
    holds(handle.at == NULL, "none for what isn't UTF-8");
    ask_in(3, "_Z3foo", 6, ROOM, COSVIGLE_BAD_CALL, NULL);
    holds(handle.at == NULL, "none for a bad call");
    cosvigle_free(&handle);
    holds(handle.at == NULL, "none after none");
    holds(cosvigle_new(&handle) == COSVIGLE_OK && handle.at != NULL, "a new one");
    holds(cosvigle_new(&handle) == COSVIGLE_OK && handle.at != NULL, "another for it");
    is(0, "_Z3foo", "foo");
    cosvigle_free(&handle);
    holds(handle.at == NULL, "none after it was freed");
    cosvigle_free(&handle);
    holds(handle.at == NULL, "none after it was freed twice");
    is(0, "_Z3bar", "bar");
    holds(handle.at != NULL, "one for a symbol");
    cosvigle_free(&handle);
    makes_within("_Z3bar+", "bar+");
    holds(handle.at != NULL, "one for a text");
}

static const char symbol[] = "_ZNSt6vectorIS_IiEE4sizeEv", answer[] = "std::vector<std::vector<int> >::size()";
static const char block[] = "_Z3foov\nx\n_Z3bar", text_of_block[] = "foo()\nx\nbar";

static const char typed[] = "PFivE", type[] = "int (*)()";

enum { NEW, LIMIT, ASK, TYPE, PART, FILTERS, REPLACES, TAKES, STRING, CXA };

/* The text of a call of this number. */
static const char *text_of(int number) {
    if (number == TYPE) return type;
    if (number == PART) return "size";
    return number == ASK || number == STRING || number == CXA ? answer : text_of_block;
}

/* Makes the call of this number; its status, or -1 if what it writes or tells isn't right. */
static int call(int number) {
    char text[ROOM];
    size_t needed = 99;
    const char *right = text_of(number);
    int status;
    memset(text, '#', sizeof text);
    if (number == NEW || number == LIMIT) {
        status = number == NEW ? cosvigle_new(&handle) : cosvigle_limit(&handle, 0);
        return (handle.at != NULL) == (status == COSVIGLE_OK) ? status : -1;
    }
    if (number == STRING || number == CXA) {
        int as_there = 0;
        char *own = number == STRING ? cosvigle_string(symbol) : cosvigle_cxa_demangle(symbol, NULL, NULL, &as_there);
        status = own == NULL ? COSVIGLE_NO_MEMORY : strcmp(own, answer) == 0 ? COSVIGLE_OK : -1;
        if (number == CXA && as_there != (own == NULL ? -1 : 0)) status = -1;
        free(own);
        return status;
    }
    if (number == ASK) status = cosvigle_ask(&handle, 0, symbol, sizeof symbol - 1, text, ROOM, &needed);
    else if (number == TYPE)
        status = cosvigle_ask(&handle, COSVIGLE_TYPES, typed, sizeof typed - 1, text, ROOM, &needed);
    else if (number == PART) status = cosvigle_part(&handle, COSVIGLE_BASE_NAME, 0, text, ROOM, &needed);
    else if (number == FILTERS) status = cosvigle_filter(&handle, 0, block, sizeof block - 1, text, ROOM, &needed);
    else if (number == REPLACES)
        status = cosvigle_replace(&handle, 0, false, block, sizeof block - 1, text, ROOM, &needed);
    else {
        status = cosvigle_replace(&handle, 0, false, block, sizeof block - 1, text, strlen(right) - 1, &needed);
        if (status == COSVIGLE_NO_ROOM && needed == strlen(right) && text[0] == '#') {
            status = cosvigle_take(&handle, text, needed, &needed);
            if (status == COSVIGLE_NO_MEMORY) return -1;
        } else if (status == COSVIGLE_OK) return -1;
    }
    if (status == COSVIGLE_NO_MEMORY) return needed == 0 && text[0] == '#' ? status : -1;
    return needed == strlen(right) && memcmp(text, right, needed) == 0 && text[needed] == '#' ? status : -1;
}

/* Each call, and again where it was out of memory: only one allocation fails. The symbol is asked of a handle that was
 * asked before, of a new one, and of one without a demangler; so is a text. */
static int refused(void) {
    static const int calls[] = {NEW, LIMIT, ASK,  ASK,     NEW,      ASK,   TYPE,   NEW,
                                TYPE, ASK,  PART, FILTERS, REPLACES, TAKES, STRING, CXA};
    static const int without[] = {LIMIT, ASK, TYPE, FILTERS, REPLACES, TAKES};
    int had_none = 0;
    long made;
    size_t at;
    if (refuse_live == NULL || refuse_made == NULL) return 1;
    for (at = 0; at < sizeof calls / sizeof *calls; at++) {
        int status = call(calls[at]);
        if (status == COSVIGLE_NO_MEMORY) {
            if (had_none++) return 1;
            status = call(calls[at]);
        }
        if (status != COSVIGLE_OK) return 1;
    }
    /* A symbol that needs no more memory than the handle has allocates nothing. */
    made = refuse_made();
    if (call(ASK) != COSVIGLE_OK || call(TYPE) != COSVIGLE_OK || refuse_made() != made) return 1;
    for (at = 0; at < sizeof without / sizeof *without; at++) {
        int status;
        cosvigle_free(&handle);
        status = call(without[at]);
        if (status == COSVIGLE_NO_MEMORY && !had_none++) status = call(without[at]);
        if (status != COSVIGLE_OK) return 1;
    }
    cosvigle_free(&handle);
    if (refuse_live() != 0) return 1;
    return had_none ? 2 : 0;
}

int main(void) {
    char byte = 0;
    size_t needed = 99;
    if (getenv("REFUSE") != NULL) return refused();
    holds(cosvigle_version() == COSVIGLE_VERSION, "the library's version is the header's");
    handles();
    ask("_ZN3Foo3barEv", 13, ROOM, COSVIGLE_OK, "Foo::bar()");
    ask("_ZN3Foo3barEv", 13, 10, COSVIGLE_OK, "Foo::bar()");
    ask("_ZN3Foo3barEv", 13, 9, COSVIGLE_NO_ROOM, "Foo::bar()");
    ask("_ZN3Foo3barEv", 13, 0, COSVIGLE_NO_ROOM, "Foo::bar()");
    is(0, "__Z3fooi.cold", "foo(int) [clone .cold]");
    is(0, "malloc", NULL);
    ask("", 0, ROOM, COSVIGLE_NO_ANSWER, NULL);
    ask("_Z1f\0o", 6, ROOM, COSVIGLE_NO_ANSWER, NULL);
    ask("_Z1\xc3\xa9", 5, ROOM, COSVIGLE_NO_ANSWER, NULL);
    ask("_Z2\xc3\xa9", 5, ROOM, COSVIGLE_OK, "\xc3\xa9");
    ask("_Z1\xff", 4, ROOM, COSVIGLE_NOT_UTF8, NULL);
    is(0, "_Z1fIJicEEvDpRKT_", "void f<int, char>(int const&, char const&)");
    is(COSVIGLE_NO_RETURN, "_Z1fIJicEEvDpRKT_", "f<int, char>(int const&, char const&)");
    is(COSVIGLE_NAME, "_Z1fIJicEEvDpRKT_", "f<int, char>");
    is(0, "_ZNK3Foo3barEv", "Foo::bar() const");
    is(0, "_Z3foo_", NULL);
    printings();
    all_parts();
    limits();
    makes(FILTER, "_Z3foov\nx\n_Z3bar", 16, "foo()\nx\nbar");
    makes(FILTER, "_Z1\xff\n\n", 6, "_Z1\xff\n\n");
    makes(FILTER, "x _Z3foov\n", 10, "x _Z3foov\n");
    makes(FILTER, "_Z3foov at main.c", 17, "_Z3foov at main.c");
    makes(FILTER, "", 0, "");
    makes(REPLACE, "", 0, "");
    makes(REPLACE, "at (_Z3foov+0x1)", 16, "at (foo()+0x1)");
    makes(REPLACE, "_Zx malloc _Z3", 14, "_Zx malloc _Z3");
    makes(REPLACE, "\xff_Z3foo\xff ._Z3bar..\n", 19, "\xff" "foo\xff .bar..\n");
    makes(REPLACE, ".text._Z3foov", 13, ".text.foo()");
    makes(REPLACE, "x___Z3foo", 9, "x___Z3foo");
    makes(STRIP, "___Z3foo", 8, "foo");
    makes(STRIP, "__ZNSt6vectorIiE4sizeEv\n___Z3foo", 32, "std::vector<int>::size()\nfoo");
    holds(cosvigle_filter(&handle, 0, &byte, 0, &byte, 0, &needed) == COSVIGLE_OK && needed == 0, "no line, no room");
    drops();
    nulls();
    strings();
    cxa();
    great();
    many();
    /* A NUL in a text is a byte like any other. */
    clear();
    holds(make(REPLACE, "a\0_Z3foo\0b", 10, room_at, ROOM, &needed) == COSVIGLE_OK, "NULs in a text");
    holds(needed == 7 && memcmp(around, "#a\0foo\0b#", 9) == 0, "they stay");
    /* Words that are types. */
    clear();
    holds(cosvigle_replace(&handle, COSVIGLE_TYPES, false, "PFivE, _Z3foov", 14, room_at, ROOM, &needed) == COSVIGLE_OK
          && needed == 16 && memcmp(room_at, "int (*)(), foo()#", 17) == 0, "types in a text");
    cosvigle_free(&handle);
    printf("%d passed, %d failed\n", passed, failed);
    return failed != 0;
}
