/* A small Lisp over the toy heap: numbers, symbols, lists and closures. Prints the value of each expression of a file.
 *
 *     cc -pthread -o lisp lisp.c toy_heap.c $(pkg-config --cflags --libs pcompact) && ./lisp lists.lisp
 *
 * With -g each allocation collects first: then a value that is used after an allocation without being in a slot shows. With
 * -t 4 four threads collect. */
#include "toy_heap.h"
#include <ctype.h>
#include <inttypes.h>
#include <stdio.h>
#include <stdlib.h>
#include <string.h>

/* An object's first word of data is its kind. Numbers, symbols and primitives have a number behind it. */
enum kind { NUMBER, SYMBOL, PRIMITIVE, PAIR, CLOSURE };

/* The references of pairs and closures. */
enum part { FIRST, REST, NAMES = 0, BODY, SCOPE };

/* The numbers of the first symbols. */
enum word { QUOTE, IF, LAMBDA, DEFINE, CALL, PLUS = CALL, MINUS, TIMES, EQUAL, LESS, CONS, CAR, CDR, RESERVED };

enum { HEAP_WORDS = 1 << 12, ROOT_ROOM = 1 << 11, MAX_SYMBOLS = 128, MAX_NAME = 16, GLOBALS = 0 };

static toy_heap heap;
static char symbols[MAX_SYMBOLS][MAX_NAME];
static int64_t symbol_count;
static FILE *source;

static void fail(const char *why) {
    fprintf(stderr, "lisp: %s\n", why);
    exit(1);
}

static value get(slot from) {
    return heap.roots[from];
}

static void set(slot to, value it) {
    heap.roots[to] = it;
}

static slot push(value it) {
    return toy_push(&heap, it);
}

/* Takes this slot and all above it from the stack, and returns the value. */
static value leave(slot base, value it) {
    heap.root_count = base;
    return it;
}

static int is_kind(value it, enum kind kind) {
    return it != 0 && toy_data(&heap, it)[0] == kind;
}

static int64_t number_of(value it) {
    return (int64_t)toy_data(&heap, it)[1];
}

static value part_of(value it, enum part part) {
    return toy_references(&heap, it)[part];
}

static value first(value list) {
    if (!is_kind(list, PAIR)) fail("a list is too short or none");
    return part_of(list, FIRST);
}

static value rest(value list) {
    if (!is_kind(list, PAIR)) fail("a list is too short or none");
    return part_of(list, REST);
}

static value second(value list) {
    return first(rest(list));
}

static value new_atom(enum kind kind, int64_t number) {
    value it = toy_new(&heap, 0, 2);
    toy_data(&heap, it)[0] = kind;
    toy_data(&heap, it)[1] = (uint64_t)number;
    return it;
}

/* An object whose references are the values of these slots. */
static value new_of_parts(enum kind kind, size_t count, const slot *parts) {
    value it = toy_new(&heap, count, 1);
    for (size_t i = 0; i < count; i++) {
        toy_references(&heap, it)[i] = get(parts[i]);
    }
    toy_data(&heap, it)[0] = kind;
    return it;
}

static value new_pair(slot first, slot rest) {
    return new_of_parts(PAIR, 2, (slot[]){first, rest});
}

/* The number of the symbol with this name. */
static int64_t symbol_of(const char *name) {
    int64_t number = 0;
    while (number < symbol_count && strcmp(symbols[number], name) != 0) number++;
    if (number == MAX_SYMBOLS) fail("too many symbols");
    if (number == symbol_count) strcpy(symbols[symbol_count++], name);
    return number;
}

/* The next byte that is no space, or EOF. */
static int next_byte(void) {
    int byte;
    do byte = getc(source);
    while (isspace(byte));
    return byte;
}

static value read_value(void);

/* The values up to the closing parenthesis. */
static value read_rest(void) {
    int byte = next_byte();
    if (byte == ')') return 0;
    ungetc(byte, source);
    slot head = push(read_value());
    slot tail = push(read_rest());
    return leave(head, new_pair(head, tail));
}

static value read_value(void) {
    int byte = next_byte();
    if (byte == '(') return read_rest();
    char word[MAX_NAME] = "", *end;
    for (size_t length = 0; byte != EOF && !isspace(byte) && byte != '(' && byte != ')'; byte = getc(source)) {
        if (length == MAX_NAME - 1) fail("a word is too long");
        word[length++] = (char)byte;
    }
    ungetc(byte, source);
    if (word[0] == 0) fail("a value is missing");
    long long number = strtoll(word, &end, 10);
    return *end == 0 ? new_atom(NUMBER, number) : new_atom(SYMBOL, symbol_of(word));
}

static void print(value it) {
    if (is_kind(it, NUMBER)) {
        printf("%" PRId64, number_of(it));
    } else if (is_kind(it, SYMBOL) || is_kind(it, PRIMITIVE)) {
        printf("%s", symbols[number_of(it)]);
    } else if (is_kind(it, CLOSURE)) {
        printf("closure");
    } else {
        putchar('(');
        for (value list = it; list != 0; list = rest(list)) {
            print(first(list));
            if (rest(list) != 0) putchar(' ');
        }
        putchar(')');
    }
}

/* The pair of a name and its value in a scope, or null. */
static value find(value name, value scope) {
    while (scope != 0 && number_of(first(first(scope))) != number_of(name)) scope = rest(scope);
    return scope != 0 ? first(scope) : 0;
}

static value look_up(value name, value scope) {
    value found = find(name, scope);
    if (found == 0) found = find(name, get(GLOBALS));
    if (found == 0) fail("a name has no value");
    return rest(found);
}

/* The scope with one more name in front. */
static value bind(slot name, slot it, slot scope) {
    slot pair = push(new_pair(name, it));
    return leave(pair, new_pair(pair, scope));
}

/* The scope of a closure with its names bound to these values. */
static value enter(slot closure, slot values) {
    slot names = push(part_of(get(closure), NAMES)), scope = push(part_of(get(closure), SCOPE));
    while (get(names) != 0) {
        slot name = push(first(get(names))), it = push(first(get(values)));
        set(scope, bind(name, it, scope));
        set(names, rest(get(names)));
        set(values, rest(get(values)));
        heap.root_count = name;
    }
    return leave(names, get(scope));
}

static value truth(int holds) {
    return holds ? new_atom(NUMBER, 1) : 0;
}

static value call_primitive(int64_t which, value arguments) {
    value one = first(arguments);
    if (which == CAR) return first(one);
    if (which == CDR) return rest(one);
    value other = second(arguments);
    if (which == CONS) {
        slot head = push(one), tail = push(other);
        return leave(head, new_pair(head, tail));
    }
    if (!is_kind(one, NUMBER) || !is_kind(other, NUMBER)) fail("a number is wanted");
    uint64_t a = (uint64_t)number_of(one), b = (uint64_t)number_of(other);
    switch (which) {
    case PLUS: return new_atom(NUMBER, (int64_t)(a + b));
    case MINUS: return new_atom(NUMBER, (int64_t)(a - b));
    case TIMES: return new_atom(NUMBER, (int64_t)(a * b));
    case EQUAL: return truth(a == b);
    default: return truth((int64_t)a < (int64_t)b);
    }
}

static value eval(value expression, value scope);

static value eval_all(value expressions, value scope) {
    if (expressions == 0) return 0;
    slot list = push(expressions), in = push(scope);
    slot head = push(eval(first(expressions), scope));
    slot tail = push(eval_all(rest(get(list)), get(in)));
    return leave(list, new_pair(head, tail));
}

static value define(value name, value expression) {
    slot base = push(name);
    slot it = push(eval(expression, 0));
    set(GLOBALS, bind(base, it, GLOBALS));
    return leave(base, get(base));
}

static value new_closure(value expression, slot scope) {
    slot names = push(second(expression)), body = push(second(rest(expression)));
    return leave(names, new_of_parts(CLOSURE, 3, (slot[]){names, body, scope}));
}

static int64_t form_of(value list) {
    return is_kind(first(list), SYMBOL) && number_of(first(list)) < CALL ? number_of(first(list)) : CALL;
}

/* A call in the place of the value takes no more of the stack: it goes on in the same two slots. */
static value eval(value expression, value scope) {
    slot it = push(expression), in = push(scope);
    for (;;) {
        value now = get(it);
        if (is_kind(now, SYMBOL)) return leave(it, look_up(now, get(in)));
        if (!is_kind(now, PAIR)) return leave(it, now);
        switch (form_of(now)) {
        case QUOTE: return leave(it, second(now));
        case LAMBDA: return leave(it, new_closure(now, in));
        case DEFINE: return leave(it, define(second(now), second(rest(now))));
        case IF: {
            value test = eval(second(now), get(in)), ways = rest(rest(get(it)));
            set(it, test != 0 ? first(ways) : second(ways));
            continue;
        }
        }
        slot function = push(eval(first(now), get(in)));
        slot values = push(eval_all(rest(get(it)), get(in)));
        if (is_kind(get(function), PRIMITIVE)) {
            return leave(it, call_primitive(number_of(get(function)), get(values)));
        }
        if (!is_kind(get(function), CLOSURE)) fail("a function is wanted");
        set(in, enter(function, values));
        set(it, part_of(get(function), BODY));
        heap.root_count = function;
    }
}

/* The names of forms and primitives, and the primitives as the first globals. */
static void start(void) {
    static const char *const names[RESERVED] = {"quote", "if", "lambda", "define", "+", "-", "*", "=", "<", "cons", "car", "cdr"};
    push(0);
    for (int64_t number = 0; number < RESERVED; number++) {
        slot name = push(new_atom(SYMBOL, symbol_of(names[number])));
        slot it = push(new_atom(PRIMITIVE, number));
        if (number >= CALL) set(GLOBALS, bind(name, it, GLOBALS));
        heap.root_count = name;
    }
}

/* Takes the options. Returns the index of the word behind them. */
static int take_options(int count, char **words) {
    int at = 1;
    if (at < count && strcmp(words[at], "-g") == 0) {
        heap.collects_always = 1;
        at++;
    }
    if (at + 1 < count && strcmp(words[at], "-t") == 0) {
        heap.threads = strtoul(words[at + 1], NULL, 10);
        at += 2;
    }
    return at;
}

int main(int count, char **words) {
    heap = toy_heap_new(HEAP_WORDS, ROOT_ROOM);
    int file = take_options(count, words), are_some = heap.threads >= 1 && heap.threads <= TOY_MAX_THREADS;
    if (file + 1 != count || !are_some || !(source = fopen(words[file], "r"))) {
        fprintf(stderr, "usage: lisp [-g] [-t THREADS] FILE\n");
        return 2;
    }
    start();
    for (int byte = next_byte(); byte != EOF; byte = next_byte()) {
        ungetc(byte, source);
        print(eval(read_value(), 0));
        putchar('\n');
    }
    fprintf(stderr, "%zu collections\n", heap.collections);
    toy_heap_free(&heap);
    return fclose(source) != 0 || fflush(stdout) != 0;
}
