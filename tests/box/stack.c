/*
 * How much stack each call takes. The call is run on a stack of its own, painted before; how far the paint is gone says how deep the call wrote.
 * Many words are typed, shown, committed and spelled so, recorded and replayed, and of each call the most is printed: its name, and the bytes below its
 * caller's stack pointer, the return address among them. For x86-64 alone, as the archive is.
 */
#include "../../box/felcantuzza.h"

extern int printf(const char *form, ...);

typedef void (*call)(void);

/* Calls a function of seven numbers on the stack that ends at top, and gives what it returned. Six are handed over in registers, the last on the stack. */
extern unsigned char on_stack(unsigned char *top, call function, const unsigned long *numbers);
__asm__(".text\n"
        "on_stack:\n"
        "    pushq %rbp\n"
        "    movq %rsp, %rbp\n"
        "    movq %rdi, %rsp\n"
        "    movq %rsi, %rax\n"
        "    movq %rdx, %r10\n"
        "    pushq $0\n" /* the stack pointer is a multiple of 16 where a function is called */
        "    pushq 48(%r10)\n"
        "    movq (%r10), %rdi\n"
        "    movq 8(%r10), %rsi\n"
        "    movq 16(%r10), %rdx\n"
        "    movq 24(%r10), %rcx\n"
        "    movq 32(%r10), %r8\n"
        "    movq 40(%r10), %r9\n"
        "    callq *%rax\n"
        "    movq %rbp, %rsp\n"
        "    popq %rbp\n"
        "    retq\n");

enum { START, TYPE, TYPE_AND_SHOW, SHOW, VERDICT, PLACE, DECISION, COMMIT, SPELL, RECORD, BEGIN, NEXT, REPLAY, CALLS };

static const struct {
    const char *name;
    call function;
} calls[CALLS] = {
    {"fz_start", (call)fz_start},
    {"fz_type", (call)fz_type},
    {"fz_type_and_show", (call)fz_type_and_show},
    {"fz_show", (call)fz_show},
    {"fz_verdict", (call)fz_verdict},
    {"fz_place", (call)fz_place},
    {"fz_decision", (call)fz_decision},
    {"fz_commit", (call)fz_commit},
    {"fz_spell", (call)fz_spell},
    {"fz_record", (call)fz_record},
    {"fz_begin", (call)fz_begin},
    {"fz_next", (call)fz_next},
    {"fz_replay", (call)fz_replay},
};

static unsigned long most[CALLS];

enum { ROOM = 16384, PAINT = 0x5A };
static unsigned char stack[ROOM] __attribute__((aligned(16)));

static unsigned long at(const void *place) { return (unsigned long)place; }

/* A call with these numbers; what it takes is noted. */
static unsigned char run(int which, const unsigned long *numbers) {
    unsigned char *const pointer = stack + ROOM - 16; /* the caller's stack pointer: two numbers are pushed before the call */
    unsigned char answer, *lowest = stack;
    for (int i = 0; i < ROOM; i++)
        stack[i] = PAINT;
    answer = on_stack(stack + ROOM, calls[which].function, numbers);
    while (*lowest == PAINT)
        lowest++;
    if (lowest < pointer && (unsigned long)(pointer - lowest) > most[which])
        most[which] = (unsigned long)(pointer - lowest);
    return answer;
}

/* The keys typed one by one, with every question after each, into an output of this length. */
static void try_keys(unsigned char mode, const char *keys, unsigned long length) {
    static unsigned char word[FZ_WORD], other[FZ_WORD], text[FZ_TEXT], list[FZ_LIST];
    static unsigned long did, n, value;
    unsigned long typed = 0;
    run(START, (unsigned long[7]){mode, at(word), FZ_WORD, at(&value)});
    run(START, (unsigned long[7]){mode, at(other), FZ_WORD, at(&value)});
    for (const char *key = keys; *key; key++) {
        typed++;
        run(TYPE, (unsigned long[7]){at(other), FZ_WORD, (unsigned char)*key, at(&value)});
        run(TYPE_AND_SHOW, (unsigned long[7]){at(word), FZ_WORD, (unsigned char)*key, at(text), length, at(&did), at(&n)});
        run(SHOW, (unsigned long[7]){at(other), FZ_WORD, at(text), length, at(&n)});
        run(VERDICT, (unsigned long[7]){at(other), FZ_WORD, at(&value)});
        run(PLACE, (unsigned long[7]){at(other), FZ_WORD, at(&value)});
        run(DECISION, (unsigned long[7]){at(other), FZ_WORD, at(&value)});
        run(COMMIT, (unsigned long[7]){mode, at(keys), typed, at(text), n, at(&value)});
        run(SPELL, (unsigned long[7]){mode, at(text), n, at(list), FZ_LIST, at(&value)});
    }
}

/* The keys and a space recorded, read press by press and replayed, into outputs of this length. */
static void try_drill(unsigned char mode, const char *keys, unsigned long length) {
    static unsigned long presses[64], place, in_word, milliseconds, value, summary[FZ_SUMMARY];
    static unsigned char recording[256], output[FZ_TEXT + 1];
    unsigned long count = 0, n;
    for (; keys[count]; count++)
        presses[count] = FZ_PRESS(100000 * count, keys[count]);
    presses[count++] = FZ_PRESS(0, FZ_SPACE);
    run(RECORD, (unsigned long[7]){mode, at(presses), count, at(recording), length, at(&value)});
    run(RECORD, (unsigned long[7]){mode, at(presses), count, at(recording), sizeof recording, at(&value)});
    n = value;
    run(BEGIN, (unsigned long[7]){at(recording), n, at(&place), at(&value)});
    for (in_word = milliseconds = 0, value = 1; value;)
        if (run(NEXT, (unsigned long[7]){at(recording), n, mode, at(&place), at(&in_word), at(&milliseconds), at(&value)}))
            break;
    run(REPLAY, (unsigned long[7]){at(recording), n, at(output), length, at(summary), at(&value)});
}

/* A recording with no end of a number in it, read from its front and from its second byte: a number is followed no further than five groups. */
static void try_endless(void) {
    static const unsigned char recording[] = {0, 255, 255, 255, 255, 255, 255, 255};
    static unsigned long place, in_word, milliseconds, value, summary[FZ_SUMMARY];
    static unsigned char output[1];
    run(BEGIN, (unsigned long[7]){at(recording + 1), 7, at(&place), at(&value)});
    place = 1;
    run(NEXT, (unsigned long[7]){at(recording), 8, FZ_TELEX, at(&place), at(&in_word), at(&milliseconds), at(&value)});
    run(REPLAY, (unsigned long[7]){at(recording), 8, at(output), 1, at(summary), at(&value)});
    run(REPLAY, (unsigned long[7]){at(recording + 1), 7, at(output), 1, at(summary), at(&value)});
}

int main(void) {
    static const struct {
        unsigned char mode;
        const char *keys;
    } words[] = {
        {FZ_TELEX, "vieejt"}, {FZ_TELEX, "nguoiwf"}, {FZ_TELEX, "dduowngf"}, {FZ_TELEX, "quyeenr"}, {FZ_TELEX, "giuwax"}, {FZ_TELEX, "tesst"},
        {FZ_TELEX, "expect"}, {FZ_TELEX, "aww"}, {FZ_TELEX, "thuowngf"}, {FZ_TELEX, "NGHIEENGF"}, {FZ_TELEX, "hoaz"}, {FZ_VNI, "d9uong72"}, {FZ_VNI, "nghie6ng2"},
        {FZ_VNI, "a88"}, {FZ_TELEX, "aeoaeoaeoaeoaeoaeoaeoaeoaeoaeoaea"},
    };
    /* Twice: at its first call a function of the C library may be sought by the loader, on the caller's stack. */
    for (int turn = 0; turn < 2; turn++) {
        for (int i = 0; i < CALLS; i++)
            most[i] = 0;
        for (unsigned i = 0; i < sizeof words / sizeof words[0]; i++) {
            try_keys(words[i].mode, words[i].keys, FZ_TEXT);
            try_keys(words[i].mode, words[i].keys, 12);
            try_drill(words[i].mode, words[i].keys, FZ_TEXT + 1);
            try_drill(words[i].mode, words[i].keys, 12);
        }
        try_endless();
    }
    for (int i = 0; i < CALLS; i++)
        printf("%s %lu\n", calls[i].name, most[i]);
    return 0;
}
