/*
 * The library as the box links it: types, numbers and macros of the header, the record byte by byte, words typed key by key, what each key did and which
 * key made which letter, every refusal, show, commit, also of keys and a text that overlap, spelling, and recordings written, read and replayed. One line
 * for each check that fails.
 *
 * VERSION, what the file of that name at the repository's root says, is defined where this is compiled.
 */
#include "../../box/felcantuzza.h"

extern int printf(const char *form, ...);

/* The calls at their exact types: another type in the header does not compile. The tests below call through the header's names. */
static const struct {
    unsigned char (*start)(unsigned char, unsigned char *, unsigned long, unsigned long *);
    unsigned char (*type)(unsigned char *, unsigned long, unsigned char, unsigned long *);
    unsigned char (*type_and_show)(unsigned char *, unsigned long, unsigned char, unsigned char *, unsigned long, unsigned long *, unsigned long *);
    unsigned char (*show)(const unsigned char *, unsigned long, unsigned char *, unsigned long, unsigned long *);
    unsigned char (*verdict)(const unsigned char *, unsigned long, unsigned long *);
    unsigned char (*place)(const unsigned char *, unsigned long, unsigned long *);
    unsigned char (*decision)(const unsigned char *, unsigned long, unsigned long *);
    unsigned char (*commit)(unsigned char, const unsigned char *, unsigned long, const unsigned char *, unsigned long, unsigned long *);
    unsigned char (*spell)(unsigned char, const unsigned char *, unsigned long, unsigned char *, unsigned long, unsigned long *);
    unsigned char (*record)(unsigned char, const unsigned long *, unsigned long, unsigned char *, unsigned long, unsigned long *);
    unsigned char (*begin)(const unsigned char *, unsigned long, unsigned long *, unsigned long *);
    unsigned char (*next)(const unsigned char *, unsigned long, unsigned char, unsigned long *, unsigned long *, unsigned long *, unsigned long *);
    unsigned char (*replay)(const unsigned char *, unsigned long, unsigned char *, unsigned long, unsigned long *, unsigned long *);
} calls = {fz_start, fz_type, fz_type_and_show, fz_show, fz_verdict, fz_place, fz_decision, fz_commit, fz_spell, fz_record, fz_begin, fz_next, fz_replay};

static int checks, failures;

static void check(int holds, const char *what, const char *of) {
    checks++;
    if (!holds) {
        failures++;
        printf("box: FAILED: %s: %s\n", of, what);
    }
}

static unsigned long length(const char *s) {
    unsigned long n = 0;
    while (s[n])
        n++;
    return n;
}

static const unsigned char *bytes(const char *s) { return (const unsigned char *)s; }

static int same(const unsigned char *a, const unsigned char *b, unsigned long n) {
    for (unsigned long i = 0; i < n; i++)
        if (a[i] != b[i])
            return 0;
    return 1;
}

static void copy(unsigned char *to, const unsigned char *from, unsigned long n) {
    for (unsigned long i = 0; i < n; i++)
        to[i] = from[i];
}

static void fill(unsigned char *to, unsigned long n, unsigned char with) {
    for (unsigned long i = 0; i < n; i++)
        to[i] = with;
}

/* What a call that is still to write its value must not leave there. */
#define UNWRITTEN 4711

/* A place that is no key's, in numbers and not by the header's name. */
enum { NONE = 255 };

/* The places of keys in a word that was typed: a letter's own key added it, after the key of the letter before; a key shaped it exactly where it has a shape, and set
   the tone exactly where there is one. Behind the letters all is as in a new word. */
static void check_places(const unsigned char *word, const char *keys) {
    for (unsigned long i = 0; i < 32; i++) {
        const unsigned char by = word[104 + i], shaper = word[136 + i];
        if (i >= word[1]) {
            check(by == 0 && shaper == 0, "no places behind the letters", keys);
            continue;
        }
        check(by < word[4] && (i == 0 || word[103 + i] < by), "a letter's key comes after that of the letter before", keys);
        if (by < word[4]) {
            const unsigned char key = word[8 + by], capital = key >= 'A' && key <= 'Z';
            check(word[40 + 2 * i] == (capital ? key + 32 : key) && word[41 + 2 * i] / 8 == capital, "a letter is added by its own key", keys);
        }
        check((shaper == NONE) == (word[41 + 2 * i] % 8 == 0) && (shaper == NONE || shaper < word[4]), "a key shaped the letters that have a shape, and no other", keys);
    }
    check((word[168] == NONE) == (word[2] == 0) && (word[168] == NONE || word[168] < word[4]), "a key set the tone where there is one", keys);
}

/* The keys typed into a new word by fz_type_and_show, and beside it by fz_type and fz_show: both say the same of the key, and leave the same word and the same text. */
static unsigned long type_all(unsigned char mode, const char *keys, unsigned char *word, unsigned char *text) {
    unsigned char other[FZ_WORD], shown[FZ_TEXT];
    unsigned long n = UNWRITTEN, m = UNWRITTEN, did, typed;
    check(fz_start(mode, word, FZ_WORD, &n) == 0 && n == 0, "a new word", keys);
    copy(other, word, FZ_WORD);
    check_places(word, keys);
    check(fz_show(word, FZ_WORD, text, FZ_TEXT, &n) == 0 && n == 0, "a new word shows nothing", keys);
    for (unsigned long i = 0; keys[i]; i++) {
        fill(text, FZ_TEXT, '#');
        fill(shown, FZ_TEXT, '#');
        did = typed = UNWRITTEN;
        check(fz_type_and_show(word, FZ_WORD, (unsigned char)keys[i], text, FZ_TEXT, &did, &n) == 0, "typed and shown", keys);
        check(fz_type(other, FZ_WORD, (unsigned char)keys[i], &typed) == 0, "typed", keys);
        check(fz_show(other, FZ_WORD, shown, FZ_TEXT, &m) == 0, "shown", keys);
        check(did == typed && did != UNWRITTEN, "one call and two say the same of the key", keys);
        check(n == m && same(text, shown, FZ_TEXT), "one call and two show the same", keys);
        check(same(word, other, FZ_WORD), "one call and two leave the same word", keys);
        check(word[4] == i + 1 && word[8 + i] == (unsigned char)keys[i], "the key is kept", keys);
        check(word[5] + word[6] + word[7] == word[4], "the counts add up", keys);
        check_places(word, keys);
        for (unsigned long j = n; j < FZ_TEXT; j++)
            check(text[j] == '#', "the output behind the text is as it was", keys);
    }
    return n;
}

struct card {
    unsigned char mode;
    const char *keys, *shown;
    unsigned long verdict, tone, place, decision;
};

static const struct card cards[] = {
    {FZ_TELEX, "", "", 1, 0, FZ_NOWHERE, 0},
    {FZ_TELEX, "vieejt", "việt", 0, 5, 2, 0},
    {FZ_TELEX, "VIEEJT", "VIỆT", 0, 5, 2, 0},
    {FZ_TELEX, "hoas", "hóa", 0, 1, 1, 0},
    {FZ_TELEX, "hoasn", "hoán", 0, 1, 2, 0},
    {FZ_TELEX, "claus", "claus", 2, 0, FZ_NOWHERE, 0},
    {FZ_TELEX, "text", "tẽt", 7, 4, 1, 1},
    {FZ_TELEX, "tesst", "test", 5, 0, FZ_NOWHERE, 0},
    {FZ_TELEX, "dod", "đo", 0, 0, FZ_NOWHERE, 0},
    {FZ_TELEX, "nguoiwf", "người", 0, 2, 3, 0},
    {FZ_TELEX, "quas", "quá", 0, 1, 2, 0},
    {FZ_TELEX, "gis", "gí", 0, 1, 1, 0},
    {FZ_TELEX, "gias", "giá", 0, 1, 2, 0},
    {FZ_TELEX, "aww", "aw", 5, 0, FZ_NOWHERE, 0},
    {FZ_TELEX, "carps", "cáp", 0, 1, 1, 0},
    {FZ_TELEX, "capr", "capr", 5, 0, FZ_NOWHERE, 0},
    {FZ_TELEX, "expect", "ễpct", 5, 4, 0, 1},
    {FZ_VNI, "a11", "a1", 5, 0, FZ_NOWHERE, 0},
    {FZ_VNI, "d9uong72", "đường", 0, 2, 2, 0},
};

static void try_card(const struct card *c) {
    unsigned char word[FZ_WORD], text[FZ_TEXT];
    unsigned long keys = length(c->keys), shown = length(c->shown), v = UNWRITTEN;
    unsigned long n = type_all(c->mode, c->keys, word, text);
    if (keys == 0)
        n = 0;
    check(n == shown && same(text, bytes(c->shown), shown), "the shown text", c->keys);
    check(word[2] == c->tone, "the tone", c->keys);
    check(fz_verdict(word, FZ_WORD, &v) == 0 && v == c->verdict, "the verdict", c->keys);
    check(fz_place(word, FZ_WORD, &v) == 0 && v == c->place, "the place of the tone", c->keys);
    check(fz_decision(word, FZ_WORD, &v) == 0 && v == c->decision, "the decision", c->keys);
    v = UNWRITTEN;
    check(fz_commit(c->mode, bytes(c->keys), keys, bytes(c->shown), shown, &v) == 0 && v == c->decision, "commit", c->keys);
    v = UNWRITTEN;
    check(fz_commit(c->mode, word + FZ_AT_KEYS, word[FZ_AT_KEY_COUNT], text, n, &v) == 0 && v == c->decision, "commit of the word's own keys", c->keys);
    v = UNWRITTEN;
    check(fz_commit(c->mode, bytes(c->keys), keys, bytes("?"), 1, &v) == 5 && v == 0, "commit of another text is refusal 5", c->keys);
    if (shown > 0) {
        check(fz_commit(c->mode, bytes(c->keys), keys, bytes(c->shown), shown - 1, &v) == 5 && v == 0, "commit of a byte less is refusal 5", c->keys);
        fill(text, FZ_TEXT, '#');
        check(fz_show(word, FZ_WORD, text, shown - 1, &v) == 4 && v == shown && text[0] == '#', "show into a byte less is refusal 4", c->keys);
        check(fz_show(word, FZ_WORD, text, shown, &v) == 0 && v == shown && text[shown] == '#', "show into just enough", c->keys);
    }
}

/* A letter's number as the header says: the small ASCII code, 256 times the shape, 2048 for a capital. The shapes in numbers, not by the header's names. */
enum { PLAIN = 0, CIRCUMFLEX = 1, HORN = 3, STROKE = 4, CAPITAL = 2048 };
#define LETTER(small, shape, capital) ((small) + 256 * (shape) + (capital))

/* A record by the places of the header; every byte of the 169 is one of these. */
struct record {
    unsigned char mode;
    const char *keys; /* bytes 8 to 39, zeros behind them; their number is byte 4 */
    unsigned char letters, tone, closed, acted, undone, appended;
    unsigned letter[4];           /* bytes 40 to 103, low byte first, zeros behind them */
    unsigned char appended_by[4]; /* bytes 104 to 135, zeros behind them */
    unsigned char shaped_by[4];   /* bytes 136 to 167, zeros behind them */
    unsigned char toned_by;       /* byte 168 */
};

static const struct record records[] = {
    {FZ_TELEX, "", 0, 0, 0, 0, 0, 0, {0}, {0}, {0}, NONE},
    {FZ_VNI, "", 0, 0, 0, 0, 0, 0, {0}, {0}, {0}, NONE},
    {FZ_TELEX, "vieejt", 4, 5, 0, 2, 0, 4, {LETTER('v', PLAIN, 0), LETTER('i', PLAIN, 0), LETTER('e', CIRCUMFLEX, 0), LETTER('t', PLAIN, 0)}, {0, 1, 2, 5}, {NONE, NONE, 3, NONE}, 4},
    {FZ_TELEX, "Dd", 1, 0, 0, 1, 0, 1, {LETTER('d', STROKE, CAPITAL)}, {0}, {1}, NONE},
    {FZ_VNI, "bA2112", 4, 0, 1, 2, 1, 3, {LETTER('b', PLAIN, 0), LETTER('a', PLAIN, CAPITAL), LETTER('1', PLAIN, 0), LETTER('2', PLAIN, 0)}, {0, 1, 4, 5}, {NONE, NONE, NONE, NONE}, NONE},
};

static void try_record(const struct record *r) {
    unsigned char word[FZ_WORD], text[FZ_TEXT];
    unsigned long typed = length(r->keys);
    type_all(r->mode, r->keys, word, text);
    check(word[0] == r->mode, "byte 0, the mode", r->keys);
    check(word[1] == r->letters, "byte 1, how many letters", r->keys);
    check(word[2] == r->tone, "byte 2, the tone", r->keys);
    check(word[3] == r->closed, "byte 3, open or closed", r->keys);
    check(word[4] == typed, "byte 4, how many keys were typed", r->keys);
    check(word[5] == r->acted, "byte 5, how many acted", r->keys);
    check(word[6] == r->undone, "byte 6, how many undid a mark", r->keys);
    check(word[7] == r->appended, "byte 7, how many were added as letters", r->keys);
    for (unsigned long i = 0; i < 32; i++)
        check(word[8 + i] == (i < typed ? (unsigned char)r->keys[i] : 0), "bytes 8 to 39, the keys", r->keys);
    for (unsigned long i = 0; i < 32; i++) {
        unsigned letter = i < r->letters ? r->letter[i] : 0;
        check(word[40 + 2 * i] == letter % 256, "bytes 40 to 103, a letter's low byte", r->keys);
        check(word[41 + 2 * i] == letter / 256, "bytes 40 to 103, a letter's high byte", r->keys);
        check(word[104 + i] == (i < r->letters ? r->appended_by[i] : 0), "bytes 104 to 135, the keys that added the letters", r->keys);
        check(word[136 + i] == (i < r->letters ? r->shaped_by[i] : 0), "bytes 136 to 167, the keys that shaped the letters", r->keys);
    }
    check(word[168] == r->toned_by, "byte 168, the key that set the tone", r->keys);
}

/* Which key made which letter: bytes 104 on, 136 on and 168. */
struct made {
    unsigned char mode;
    const char *keys;
    unsigned char letters, appended_by[6], shaped_by[6], toned_by;
};

static const struct made made[] = {
    /* a horn key on a pair has shaped both, also the one that had its horn */
    {FZ_TELEX, "nguoiwf", 5, {0, 1, 2, 3, 4}, {NONE, NONE, 5, 5, NONE}, 6},
    {FZ_TELEX, "luw", 2, {0, 1}, {NONE, 2}, NONE},
    {FZ_TELEX, "luwow", 3, {0, 1, 3}, {NONE, 4, 4}, NONE},
    {FZ_TELEX, "luwowng", 5, {0, 1, 3, 5, 6}, {NONE, 4, 4, NONE, NONE}, NONE},
    /* the letter behind huo, khuo, thuo with a horn on the o puts it on the u too */
    {FZ_TELEX, "thuow", 4, {0, 1, 2, 3}, {NONE, NONE, NONE, 4}, NONE},
    {FZ_TELEX, "thuown", 5, {0, 1, 2, 3, 5}, {NONE, NONE, 5, 4, NONE}, NONE},
    {FZ_TELEX, "thuowng", 6, {0, 1, 2, 3, 5, 6}, {NONE, NONE, 5, 4, NONE, NONE}, NONE},
    {FZ_TELEX, "thuowh", 5, {0, 1, 2, 3, 5}, {NONE, NONE, NONE, 4, NONE}, NONE},
    {FZ_VNI, "khuo7I1", 5, {0, 1, 2, 3, 5}, {NONE, NONE, 5, 4, NONE}, 6},
    /* stroke, shape and tone in several orders */
    {FZ_VNI, "d9uong72", 5, {0, 2, 3, 4, 5}, {1, 6, 6, NONE, NONE}, 7},
    {FZ_VNI, "duong972", 5, {0, 1, 2, 3, 4}, {5, 6, 6, NONE, NONE}, 7},
    {FZ_VNI, "duong279", 5, {0, 1, 2, 3, 4}, {7, 6, 6, NONE, NONE}, 5},
    /* a mark in place of another; a tone cleared, and set again */
    {FZ_TELEX, "asf", 1, {0}, {NONE}, 2},
    {FZ_TELEX, "aaw", 1, {0}, {2}, NONE},
    {FZ_VNI, "a10", 1, {0}, {NONE}, NONE},
    {FZ_TELEX, "aasz", 1, {0}, {1}, NONE},
    {FZ_TELEX, "aszs", 1, {0}, {NONE}, 3},
    /* undone: a shape, a stroke, both horns of a pair, also where two keys put them on, and a tone; the letter is the undoing key's own */
    {FZ_TELEX, "aa", 1, {0}, {1}, NONE},
    {FZ_TELEX, "aaa", 2, {0, 2}, {NONE, NONE}, NONE},
    {FZ_TELEX, "dadd", 3, {0, 1, 3}, {NONE, NONE, NONE}, NONE},
    {FZ_TELEX, "uoww", 3, {0, 1, 3}, {NONE, NONE, NONE}, NONE},
    {FZ_TELEX, "huownw", 5, {0, 1, 2, 4, 5}, {NONE, NONE, NONE, NONE, NONE}, NONE},
    {FZ_TELEX, "tesst", 4, {0, 1, 3, 4}, {NONE, NONE, NONE, NONE}, NONE},
    /* where a shape is undone the tone's key stays, and the other way round */
    {FZ_TELEX, "asaa", 2, {0, 3}, {NONE, NONE}, 1},
    {FZ_TELEX, "nguoiwfw", 6, {0, 1, 2, 3, 4, 7}, {NONE, NONE, NONE, NONE, NONE, NONE}, 6},
    {FZ_TELEX, "aass", 2, {0, 3}, {1, NONE}, NONE},
    /* one of two letters undone, and letters behind an undo */
    {FZ_TELEX, "ddaaa", 3, {0, 2, 4}, {1, NONE, NONE}, NONE},
    {FZ_TELEX, "huowwn", 5, {0, 1, 2, 4, 5}, {NONE, NONE, NONE, NONE, NONE}, NONE},
};

static void try_made(const struct made *m) {
    unsigned char word[FZ_WORD], text[FZ_TEXT];
    type_all(m->mode, m->keys, word, text);
    check(word[1] == m->letters, "how many letters", m->keys);
    check(same(word + 104, m->appended_by, m->letters), "which keys added the letters", m->keys);
    check(same(word + 136, m->shaped_by, m->letters), "which keys shaped the letters", m->keys);
    check(word[168] == m->toned_by, "which key set the tone", m->keys);
}

/* What each key did, as fz_type's value, and as fz_type_and_show says it into an output with room for any text and into one that just fits. */
static void try_outcomes(unsigned char mode, const char *keys, const unsigned long *did) {
    unsigned char word[FZ_WORD], other[FZ_WORD], tight[FZ_WORD], text[FZ_TEXT];
    unsigned long v = UNWRITTEN, n, told;
    fz_start(mode, word, FZ_WORD, &v);
    copy(other, word, FZ_WORD);
    copy(tight, word, FZ_WORD);
    for (unsigned long i = 0; keys[i]; i++) {
        check(fz_type(word, FZ_WORD, (unsigned char)keys[i], &v) == 0 && v == did[i], "what the key did", keys);
        told = UNWRITTEN;
        check(fz_type_and_show(other, FZ_WORD, (unsigned char)keys[i], text, FZ_TEXT, &told, &n) == 0 && told == did[i], "what the key did, beside the text", keys);
        told = UNWRITTEN;
        check(fz_type_and_show(tight, FZ_WORD, (unsigned char)keys[i], text, n, &told, &v) == 0 && told == did[i] && v == n, "what the key did, beside a text that just fits", keys);
    }
}

/* The names of the header, each by its value. */
static void try_names(void) {
    const struct {
        const char *name;
        unsigned long is, should;
    } names[] = {
        {"FZ_WORD", FZ_WORD, 169},
        {"FZ_KEYS", FZ_KEYS, 32},
        {"FZ_TEXT", FZ_TEXT, 96},
        {"FZ_LIST", FZ_LIST, 9},
        {"FZ_TELEX", FZ_TELEX, 0},
        {"FZ_VNI", FZ_VNI, 1},
        {"FZ_AT_MODE", FZ_AT_MODE, 0},
        {"FZ_AT_LETTER_COUNT", FZ_AT_LETTER_COUNT, 1},
        {"FZ_AT_TONE", FZ_AT_TONE, 2},
        {"FZ_AT_MARK", FZ_AT_MARK, 3},
        {"FZ_AT_KEY_COUNT", FZ_AT_KEY_COUNT, 4},
        {"FZ_AT_ACTED", FZ_AT_ACTED, 5},
        {"FZ_AT_UNDONE", FZ_AT_UNDONE, 6},
        {"FZ_AT_APPENDED", FZ_AT_APPENDED, 7},
        {"FZ_AT_KEYS", FZ_AT_KEYS, 8},
        {"FZ_AT_LETTERS", FZ_AT_LETTERS, 40},
        {"FZ_AT_APPENDED_BY", FZ_AT_APPENDED_BY, 104},
        {"FZ_AT_SHAPED_BY", FZ_AT_SHAPED_BY, 136},
        {"FZ_AT_TONED_BY", FZ_AT_TONED_BY, 168},
        {"FZ_NO_KEY", FZ_NO_KEY, 255},
        {"FZ_OPEN", FZ_OPEN, 0},
        {"FZ_CLOSED", FZ_CLOSED, 1},
        {"FZ_PLAIN", FZ_PLAIN, 0},
        {"FZ_CIRCUMFLEX", FZ_CIRCUMFLEX, 1},
        {"FZ_BREVE", FZ_BREVE, 2},
        {"FZ_HORN", FZ_HORN, 3},
        {"FZ_STROKE", FZ_STROKE, 4},
        {"FZ_NO_TONE", FZ_NO_TONE, 0},
        {"FZ_ACUTE", FZ_ACUTE, 1},
        {"FZ_GRAVE", FZ_GRAVE, 2},
        {"FZ_HOOK", FZ_HOOK, 3},
        {"FZ_TILDE", FZ_TILDE, 4},
        {"FZ_DOT", FZ_DOT, 5},
        {"FZ_ANSWERED", FZ_ANSWERED, 0},
        {"FZ_REFUSED_MODE", FZ_REFUSED_MODE, 1},
        {"FZ_REFUSED_LENGTH", FZ_REFUSED_LENGTH, 2},
        {"FZ_REFUSED_KEY", FZ_REFUSED_KEY, 3},
        {"FZ_REFUSED_ROOM", FZ_REFUSED_ROOM, 4},
        {"FZ_REFUSED_TEXT", FZ_REFUSED_TEXT, 5},
        {"FZ_REFUSED_LETTER", FZ_REFUSED_LETTER, 6},
        {"FZ_REFUSED_SYLLABLE", FZ_REFUSED_SYLLABLE, 7},
        {"FZ_REFUSED_WORD", FZ_REFUSED_WORD, 8},
        {"FZ_REFUSED_NUMBER", FZ_REFUSED_NUMBER, 10},
        {"FZ_REFUSED_TIME", FZ_REFUSED_TIME, 11},
        {"FZ_VALID", FZ_VALID, 0},
        {"FZ_NUCLEUS_EMPTY", FZ_NUCLEUS_EMPTY, 1},
        {"FZ_INITIAL_UNKNOWN", FZ_INITIAL_UNKNOWN, 2},
        {"FZ_LEFTOVERS", FZ_LEFTOVERS, 3},
        {"FZ_INITIAL_UNFIT", FZ_INITIAL_UNFIT, 4},
        {"FZ_FINAL_UNKNOWN", FZ_FINAL_UNKNOWN, 5},
        {"FZ_NUCLEUS_UNLISTED", FZ_NUCLEUS_UNLISTED, 6},
        {"FZ_TONE_UNFIT", FZ_TONE_UNFIT, 7},
        {"FZ_TWO_TONES", FZ_TWO_TONES, 8},
        {"FZ_TONE_ELSEWHERE", FZ_TONE_ELSEWHERE, 9},
        {"FZ_NOWHERE", FZ_NOWHERE, 255},
        {"FZ_KEEP", FZ_KEEP, 0},
        {"FZ_RESTORE", FZ_RESTORE, 1},
        {"FZ_DID_NOTHING", FZ_DID_NOTHING, 0},
        {"FZ_DID_TONE", FZ_DID_TONE, 1},
        {"FZ_DID_SHAPE", FZ_DID_SHAPE, 2},
        {"FZ_DID_STROKE", FZ_DID_STROKE, 3},
        {"FZ_DID_CLEAR", FZ_DID_CLEAR, 4},
        {"FZ_DID_UNDO", FZ_DID_UNDO, 5},
        {"FZ_DID_APPEND", FZ_DID_APPEND, 6},
        {"FZ_SPACE", FZ_SPACE, 32},
        {"FZ_SUMMARY", FZ_SUMMARY, 7},
        {"FZ_WORDS", FZ_WORDS, 0},
        {"FZ_KEPT", FZ_KEPT, 1},
        {"FZ_RESTORED", FZ_RESTORED, 2},
        {"FZ_ACTED", FZ_ACTED, 3},
        {"FZ_UNDONE", FZ_UNDONE, 4},
        {"FZ_APPENDED", FZ_APPENDED, 5},
        {"FZ_MILLISECONDS", FZ_MILLISECONDS, 6},
    };
    for (unsigned long i = 0; i < sizeof names / sizeof names[0]; i++)
        check(names[i].is == names[i].should, "its value", names[i].name);
    check(length(FZ_VERSION) == length(VERSION) && same(bytes(FZ_VERSION), bytes(VERSION), length(VERSION)), "what the file VERSION says", "FZ_VERSION");
}

/* The macros that take an outcome apart, at every kind, those that read a letter out of a word, and those of a press. */
static void try_macros(void) {
    const struct {
        unsigned long did, kind, tone, shape;
    } outcomes[] = {{0, 0, 0, 0}, {17, 1, 1, 0}, {21, 1, 5, 0}, {33, 2, 0, 1}, {35, 2, 0, 3}, {48, 3, 0, 0}, {64, 4, 0, 0}, {80, 5, 0, 0}, {96, 6, 0, 0}};
    unsigned char word[FZ_WORD], text[FZ_TEXT];
    for (unsigned long i = 0; i < sizeof outcomes / sizeof outcomes[0]; i++) {
        check(FZ_KIND(outcomes[i].did) == outcomes[i].kind, "the kind of an outcome", "FZ_KIND");
        check(FZ_TONE_SET(outcomes[i].did) == outcomes[i].tone, "the tone that was set", "FZ_TONE_SET");
        check(FZ_SHAPE_SET(outcomes[i].did) == outcomes[i].shape, "the shape that was set", "FZ_SHAPE_SET");
    }
    type_all(FZ_TELEX, "DdooWN", word, text);
    for (unsigned long i = 0; i < 3; i++) {
        const unsigned letter[] = {LETTER('d', STROKE, CAPITAL), LETTER('o', HORN, 0), LETTER('n', PLAIN, CAPITAL)}, base[] = {'d', 'o', 'n'}, shape[] = {STROKE, HORN, PLAIN}, capital[] = {1, 0, 1};
        const unsigned is = (unsigned)FZ_LETTER(word, i);
        check(is == letter[i], "a letter of a word", "FZ_LETTER");
        check(FZ_LETTER_BASE(is) == base[i], "the small ASCII code", "FZ_LETTER_BASE");
        check(FZ_LETTER_SHAPE(is) == shape[i], "the shape", "FZ_LETTER_SHAPE");
        check(FZ_LETTER_CAPITAL(is) == capital[i], "the case", "FZ_LETTER_CAPITAL");
    }
    for (unsigned long i = 0; i < 4; i++) {
        const unsigned long time[] = {0, 1, 70000, 4294967295}, press[] = {'a', 256 + 32, 256UL * 70000 + 0xFF, 256 * 4294967295 + '9'};
        const signed char key[] = {'a', 32, -1, '9'};
        check(FZ_PRESS(time[i], key[i]) == press[i], "the key and 256 times the milliseconds", "FZ_PRESS");
        check(FZ_PRESS_KEY(press[i]) == (unsigned char)key[i], "the key", "FZ_PRESS_KEY");
        check(FZ_PRESS_TIME(press[i]) == time[i], "the milliseconds", "FZ_PRESS_TIME");
    }
}

/* The one overlap that the header promises: the keys and the text of fz_commit may be the same bytes, or share some. Each two parts of one buffer, and beside them the same keys and text apart. */
static void try_overlap(void) {
    const unsigned char shared[] = "lalala1";
    unsigned char keys[4], text[4];
    unsigned long v = UNWRITTEN, w;
    check(fz_commit(FZ_TELEX, shared, 4, shared, 4, &v) == 0 && v == 0, "keys and text are the same bytes", "fz_commit");
    v = UNWRITTEN;
    check(fz_commit(FZ_TELEX, shared, 4, shared + 2, 4, &v) == 0 && v == 0, "the text begins within the keys", "fz_commit");
    v = UNWRITTEN;
    check(fz_commit(FZ_TELEX, shared, 7, shared, 4, &v) == 3 && v == 6, "the text lies in keys of which one is none", "fz_commit");
    for (unsigned long from = 0; from <= 3; from++)
        for (unsigned long at = 0; at <= 3; at++)
            for (unsigned long n = 0; n <= 4; n++)
                for (unsigned long m = 0; m <= 4; m++) {
                    copy(keys, shared + from, n);
                    copy(text, shared + at, m);
                    v = UNWRITTEN;
                    check(fz_commit(FZ_VNI, shared + from, n, shared + at, m, &v) == fz_commit(FZ_VNI, keys, n, text, m, &w) && v == w, "parts of one buffer", "fz_commit");
                }
}

/* Each call on these bytes is refused with the number and the value, and changes no byte. */
static void try_refused(unsigned char *word, unsigned long word_length, unsigned char number, unsigned long value, const char *why) {
    unsigned char before[FZ_WORD + 1], text[FZ_TEXT], blank[FZ_TEXT];
    unsigned long v[6], did;
    fill(text, FZ_TEXT, '#');
    fill(blank, FZ_TEXT, '#');
    copy(before, word, word_length);
    for (int i = 0; i < 6; i++)
        v[i] = UNWRITTEN;
    check(fz_type(word, word_length, 'a', &v[0]) == number && v[0] == value, "fz_type", why);
    for (unsigned long room = 0; room <= FZ_TEXT; room += FZ_TEXT) {
        v[1] = did = UNWRITTEN;
        check(fz_type_and_show(word, word_length, 'a', text, room, &did, &v[1]) == number && v[1] == value && did == 0, "fz_type_and_show", why);
    }
    if (number == 8) {
        check(fz_show(word, word_length, text, FZ_TEXT, &v[2]) == 8 && v[2] == 0, "fz_show", why);
        check(fz_verdict(word, word_length, &v[3]) == 8 && v[3] == 0, "fz_verdict", why);
        check(fz_place(word, word_length, &v[4]) == 8 && v[4] == 0, "fz_place", why);
        check(fz_decision(word, word_length, &v[5]) == 8 && v[5] == 0, "fz_decision", why);
    }
    check(same(word, before, word_length), "the word is as it was", why);
    check(same(text, blank, FZ_TEXT), "the output is as it was", why);
}

/* A word with one byte changed is out of range. */
static void try_broken(const unsigned char *word, unsigned long place, unsigned char byte, const char *why) {
    unsigned char broken[FZ_WORD];
    copy(broken, word, FZ_WORD);
    broken[place] = byte;
    try_refused(broken, FZ_WORD, 8, 0, why);
}

/* A word is answered by every call that only reads it: the text, the verdict, the place of the tone and the decision. */
static void try_answered(const unsigned char *word, const char *shown, unsigned long verdict, unsigned long place, unsigned long decision, const char *why) {
    unsigned char text[FZ_TEXT];
    unsigned long v = UNWRITTEN;
    check(fz_show(word, FZ_WORD, text, FZ_TEXT, &v) == 0 && v == length(shown) && same(text, bytes(shown), v), "fz_show", why);
    check(fz_verdict(word, FZ_WORD, &v) == 0 && v == verdict, "fz_verdict", why);
    check(fz_place(word, FZ_WORD, &v) == 0 && v == place, "fz_place", why);
    check(fz_decision(word, FZ_WORD, &v) == 0 && v == decision, "fz_decision", why);
}

/* A key typed by either call changes these bytes of the word and no other. */
struct change {
    unsigned char place, byte;
};

static void try_changes(const unsigned char *word, unsigned char key, const struct change *changes, unsigned long n, const char *why) {
    unsigned char should[FZ_WORD], one[FZ_WORD], other[FZ_WORD], text[FZ_TEXT];
    unsigned long did, v;
    copy(should, word, FZ_WORD);
    copy(one, word, FZ_WORD);
    copy(other, word, FZ_WORD);
    for (unsigned long i = 0; i < n; i++)
        should[changes[i].place] = changes[i].byte;
    check(fz_type(one, FZ_WORD, key, &v) == 0 && same(one, should, FZ_WORD), "fz_type changes what it should and no other byte", why);
    check(fz_type_and_show(other, FZ_WORD, key, text, FZ_TEXT, &did, &v) == 0 && same(other, should, FZ_WORD), "fz_type_and_show changes what it should and no other byte", why);
}

/* The word vieejt with other bytes past its 6 keys and 4 letters, and with other places of keys that are in range: answered as it is, and these bytes stay. The keys
   are an s, which sets another tone, an e, which undoes the circumflex, and an a, which is added. */
static void try_unread(const unsigned char *word) {
    static const unsigned char values[] = {0, 5, 6, 32, 254, 255};
    static const struct change s[] = {{2, 1}, {4, 7}, {5, 3}, {14, 's'}, {168, 6}};
    static const struct change e[] = {{1, 5}, {3, 1}, {4, 7}, {6, 1}, {14, 'e'}, {45, 0}, {48, 'e'}, {49, 0}, {108, 6}, {138, NONE}, {140, NONE}};
    static const struct change a[] = {{1, 5}, {4, 7}, {7, 5}, {14, 'a'}, {48, 'a'}, {49, 0}, {108, 6}, {140, NONE}};
    unsigned char other[FZ_WORD];
    for (unsigned long i = 0; i < sizeof values + 3; i++) {
        const char *why = "bytes past the counts";
        copy(other, word, FZ_WORD);
        if (i < sizeof values) {
            fill(other + 14, 26, values[i]);
            fill(other + 48, 56, values[i]);
            fill(other + 108, 28, values[i]);
            fill(other + 140, 28, values[i]);
        } else {
            /* all made by the first key, all by the last, and as few as may be */
            const unsigned char by[] = {0, 5, 5}, shaper[] = {0, 5, NONE};
            fill(other + 104, 4, by[i - sizeof values]);
            fill(other + 136, 4, shaper[i - sizeof values]);
            other[168] = shaper[i - sizeof values];
            why = "other places of keys";
        }
        try_answered(other, "việt", 0, 2, 0, why);
        try_changes(other, 's', s, sizeof s / sizeof s[0], why);
        try_changes(other, 'e', e, sizeof e / sizeof e[0], why);
        try_changes(other, 'a', a, sizeof a / sizeof a[0], why);
    }
}

/* Places out of range in a word in range: every letter's, and the tone's. None may stand for a shape and for the tone, and never for a letter's own key. */
static void try_wrong_places(const unsigned char *word) {
    const unsigned char typed = word[4];
    for (unsigned long i = 0; i < word[1]; i++) {
        try_broken(word, 104 + i, typed, "a letter added by a key past the last");
        try_broken(word, 104 + i, 254, "a letter added by key 254");
        try_broken(word, 104 + i, NONE, "a letter that no key added");
        try_broken(word, 136 + i, typed, "a letter shaped by a key past the last");
        try_broken(word, 136 + i, 254, "a letter shaped by key 254");
    }
    try_broken(word, 168, typed, "a tone set by a key past the last");
    try_broken(word, 168, 254, "a tone set by key 254");
}

/* A shown text spelled in both modes; typing either list shows it again. */
static void try_spelled(const char *shown, const char *telex, const char *vni) {
    for (unsigned char mode = FZ_TELEX; mode <= FZ_VNI; mode++) {
        const char *list = mode == FZ_TELEX ? telex : vni;
        unsigned char word[FZ_WORD], text[FZ_TEXT], keys[FZ_LIST + 1];
        unsigned long n = length(list), v = UNWRITTEN;
        fill(keys, FZ_LIST + 1, '#');
        check(fz_spell(mode, bytes(shown), length(shown), keys, FZ_LIST, &v) == 0 && v == n && same(keys, bytes(list), n) && keys[n] == '#', "the key list", shown);
        check(type_all(mode, list, word, text) == length(shown) && same(text, bytes(shown), length(shown)), "typed again", shown);
        fill(keys, FZ_LIST + 1, '#');
        check(fz_spell(mode, bytes(shown), length(shown), keys, n - 1, &v) == 4 && v == n && keys[0] == '#', "a list into a byte less is refusal 4", shown);
    }
}

/* A text that is not spelled. */
static void try_not_spelled(const char *text, unsigned char number, unsigned long value) {
    unsigned char keys[FZ_LIST];
    unsigned long v = UNWRITTEN;
    fill(keys, FZ_LIST, '#');
    check(fz_spell(FZ_TELEX, bytes(text), length(text), keys, FZ_LIST, &v) == number && v == value && keys[0] == '#', "the speller's refusal", text);
}

/* A drill: its presses, its recording byte by byte, and what comes of it. */
struct drill {
    const char *name;
    unsigned char mode;
    unsigned long count, presses[12], length;
    unsigned char recording[32];
    const char *committed;
    unsigned long summary[7];
};

static const struct drill drills[] = {
    {"vieejt text", FZ_TELEX, 11,
     {FZ_PRESS(0, 'v'), FZ_PRESS(120, 'i'), FZ_PRESS(300, 'e'), FZ_PRESS(128, 'e'), FZ_PRESS(5, 'j'), FZ_PRESS(70000, 't'), FZ_PRESS(3, ' '), FZ_PRESS(1, 't'), FZ_PRESS(2, 'e'), FZ_PRESS(3, 'x'), FZ_PRESS(4, 't')},
     27, {0, 0, 'v', 0x78, 'i', 0xAC, 2, 'e', 0x80, 1, 'e', 5, 'j', 0xF0, 0xA2, 4, 't', 3, ' ', 1, 't', 2, 'e', 3, 'x', 4, 't'},
     "việt\ntext\n", {2, 1, 1, 3, 0, 7, 70566}},
    {"no press", FZ_VNI, 0, {0}, 1, {1}, "", {0}},
    {"two empty words", FZ_TELEX, 2, {FZ_PRESS(0, ' '), FZ_PRESS(0, ' ')}, 5, {0, 0, ' ', 0, ' '}, "\n\n", {2, 2}},
    {"an undo, and a space at the end", FZ_VNI, 4, {FZ_PRESS(1, 'a'), FZ_PRESS(1, '1'), FZ_PRESS(1, '1'), FZ_PRESS(127, ' ')}, 9, {1, 1, 'a', 1, '1', 1, '1', 127, ' '}, "a1\n", {1, 1, 0, 1, 1, 1, 130}},
    {"as long as it may take", FZ_TELEX, 2, {FZ_PRESS(4294967294, 'a'), FZ_PRESS(1, 'b')}, 9, {0, 0xFE, 0xFF, 0xFF, 0xFF, 15, 'a', 1, 'b'}, "ab\n", {1, 1, 0, 0, 0, 2, 4294967295}},
};

static int same_numbers(const unsigned long *a, const unsigned long *b, unsigned long n) {
    for (unsigned long i = 0; i < n; i++)
        if (a[i] != b[i])
            return 0;
    return 1;
}

/* A recording replayed into an output of this length: refused with the number and the value, and output and summary as they were. */
static void try_not_replayed(const unsigned char *recording, unsigned long n, unsigned long room, unsigned char number, unsigned long value, const char *why) {
    unsigned char output[64], blank[64];
    unsigned long summary[7] = {1, 2, 3, 4, 5, 6, 7}, before[7] = {1, 2, 3, 4, 5, 6, 7}, v = UNWRITTEN;
    fill(output, sizeof output, '#');
    fill(blank, sizeof blank, '#');
    check(fz_replay(recording, n, output, room, summary, &v) == number && v == value, "fz_replay's refusal", why);
    check(same(output, blank, sizeof output) && same_numbers(summary, before, 7), "fz_replay leaves output and summary", why);
}

/* Presses that are not recorded. */
static void try_not_recorded(unsigned char mode, const unsigned long *presses, unsigned long count, unsigned long room, unsigned char number, unsigned long value, const char *why) {
    unsigned char output[64], blank[64];
    unsigned long v = UNWRITTEN;
    fill(output, sizeof output, '#');
    fill(blank, sizeof blank, '#');
    check(fz_record(mode, presses, count, output, room, &v) == number && v == value, "fz_record's refusal", why);
    check(same(output, blank, sizeof output), "fz_record leaves the output", why);
}

/* One press read from these numbers: returned and value, and where the numbers then stand. */
static void try_next(const unsigned char *recording, unsigned long n, unsigned char mode, const unsigned long from[3], unsigned char number, unsigned long value, const unsigned long to[3], const char *why) {
    unsigned long at = from[0], in_word = from[1], milliseconds = from[2], v = UNWRITTEN;
    check(fz_next(recording, n, mode, &at, &in_word, &milliseconds, &v) == number && v == value, "fz_next", why);
    check(at == to[0] && in_word == to[1] && milliseconds == to[2], "place, keys of the word and milliseconds behind fz_next", why);
}

/* Written, read press by press, and replayed; written and replayed into just enough room, and into a byte less. */
static void try_drill(const struct drill *d) {
    unsigned char output[64];
    unsigned long n = length(d->committed), v = UNWRITTEN, at = UNWRITTEN, in_word = 0, milliseconds = 0, keys = 0, time = 0, summary[8];
    fill(output, sizeof output, '#');
    check(fz_record(d->mode, d->presses, d->count, output, d->length, &v) == 0 && v == d->length && same(output, d->recording, v) && output[v] == '#', "the recording", d->name);
    v = UNWRITTEN;
    check(fz_record(d->mode, d->presses, d->count, output, sizeof output, &v) == 0 && v == d->length && output[v] == '#', "the recording into more room", d->name);
    try_not_recorded(d->mode, d->presses, d->count, d->length - 1, 4, d->length, d->name);

    v = UNWRITTEN;
    check(fz_begin(d->recording, d->length, &at, &v) == 0 && v == d->mode && at == 1, "the mode", d->name);
    for (unsigned long i = 0; i < d->count; i++) {
        const unsigned long press = d->presses[i], before = at;
        keys = press % 256 == 32 ? 0 : keys + 1;
        time += press / 256;
        v = UNWRITTEN;
        check(fz_next(d->recording, d->length, d->mode, &at, &in_word, &milliseconds, &v) == 0 && v == press && at > before + 1, "a press", d->name);
        check(in_word == keys && milliseconds == time, "keys of the word and milliseconds behind a press", d->name);
    }
    check(at == d->length, "the place behind the last press", d->name);
    try_next(d->recording, d->length, d->mode, (const unsigned long[]){at, keys, time}, 0, 0, (const unsigned long[]){at, keys, time}, d->name);

    fill(output, sizeof output, '#');
    summary[7] = v = UNWRITTEN;
    check(fz_replay(d->recording, d->length, output, n, summary, &v) == 0 && v == n && same(output, bytes(d->committed), n) && output[n] == '#', "the committed words", d->name);
    check(same_numbers(summary, d->summary, 7) && summary[7] == UNWRITTEN, "the summary", d->name);
    if (n > 0)
        try_not_replayed(d->recording, d->length, n - 1, 4, n, d->name);
}

/* A recording that is refused, by fz_replay and by the calls that read it press by press: the same number and place, and every lent number as it was. */
static void try_faulty(const char *recording, unsigned long n, unsigned char number, unsigned long place, const char *why) {
    unsigned long at = UNWRITTEN, in_word = 0, milliseconds = 0, v = UNWRITTEN, before[3];
    unsigned char refused = fz_begin(bytes(recording), n, &at, &v);
    const unsigned char mode = (unsigned char)v;
    try_not_replayed(bytes(recording), n, 64, number, place, why);
    try_not_replayed(bytes(recording), n, 0, number, place, why);
    if (refused) {
        check(refused == number && v == place && at == UNWRITTEN, "fz_begin's refusal", why);
        return;
    }
    do {
        before[0] = at, before[1] = in_word, before[2] = milliseconds;
        refused = fz_next(bytes(recording), n, mode, &at, &in_word, &milliseconds, &v);
    } while (refused == 0 && v != 0);
    check(refused == number && v == place, "fz_next's refusal", why);
    check(at == before[0] && in_word == before[1] && milliseconds == before[2], "fz_next leaves its numbers where it refuses", why);
}

static void try_recordings(void) {
    static const unsigned char steps[] = {0, 'a', 1, 32, 0, '1'};
    unsigned char full[67] = {0};
    unsigned long presses[34];
    for (unsigned long i = 0; i < sizeof drills / sizeof drills[0]; i++)
        try_drill(&drills[i]);

    /* Recordings that are refused, each for one thing. */
    try_faulty("", 0, 10, 0, "no byte");
    try_faulty("\x80", 1, 10, 0, "a mode that is cut short");
    try_faulty("\x81\0", 2, 10, 0, "a mode that is not in its shortest form");
    try_faulty("\2", 1, 1, 0, "mode 2");
    try_faulty("\x80\2", 2, 1, 0, "mode 256");
    try_faulty("\0\1", 2, 10, 2, "a time and no key");
    try_faulty("\0\x80\0a", 4, 10, 1, "a time that is not in its shortest form");
    try_faulty("\0\xFF\xFF\xFF\xFF\x10" "a", 7, 10, 1, "a time of 2 to the 32 or more");
    try_faulty("\0\x80\x80\x80\x80\x80\1a", 8, 10, 1, "a time of six groups");
    try_faulty("\0\0a\1\xE1\0", 6, 10, 4, "a key that is not in its shortest form");
    try_faulty("\0\0\x31", 3, 3, 2, "a digit in Telex");
    try_faulty("\1\0\x31\0\x40", 5, 3, 4, "no key");
    try_faulty("\0\0\xE1\1", 4, 3, 2, "key 225");
    try_faulty("\0\0\xE1\2", 4, 3, 2, "key 353, a letter and 256");
    try_faulty("\0\xFF\xFF\xFF\xFF\x0F" "a\1a", 9, 11, 7, "together 2 to the 32 milliseconds");
    try_faulty("\0\xFF\xFF\xFF\xFF\x0F" "a\1 ", 9, 11, 7, "together 2 to the 32 milliseconds with a space");

    /* The 33rd key of a word, at its key number; after a space it is the first of another. */
    for (unsigned long i = 0; i < 33; i++) {
        full[2 * i + 2] = 'b';
        presses[i] = FZ_PRESS(0, 'b');
    }
    try_faulty((const char *)full, 67, 2, 66, "33 keys");
    try_not_recorded(FZ_TELEX, presses, 33, 64, 2, 32, "33 keys");
    full[66] = '1';
    try_faulty((const char *)full, 67, 2, 66, "2 comes before 3");
    full[66] = ' ';
    try_not_replayed(full, 67, 32, 4, 33, "32 keys and a space");

    /* Presses that are refused, at their places; 1 first and 4 last. */
    presses[1] = FZ_PRESS(0, '1');
    try_not_recorded(2, presses, 2, 0, 1, 0, "mode 2");
    try_not_recorded(FZ_TELEX, presses, 2, 0, 3, 1, "a digit in Telex");
    presses[0] = FZ_PRESS(4294967295, 'a');
    presses[1] = FZ_PRESS(0, 'a');
    presses[2] = FZ_PRESS(1, ' ');
    try_not_recorded(FZ_VNI, presses, 3, 0, 11, 2, "together 2 to the 32 milliseconds");
    presses[0] = 18446744073709551615UL;
    try_not_recorded(FZ_VNI, presses, 1, 64, 3, 0, "the greatest number as a press");
    presses[0] = FZ_PRESS(4294967296, 'a');
    try_not_recorded(FZ_VNI, presses, 1, 64, 11, 0, "a press after 2 to the 32 milliseconds");

    /* Any numbers handed to fz_next: a place at and past the end, a word of 32 keys and more, milliseconds up to the limit and over it, a mode that does not exist. */
    for (unsigned long i = 0; i < 3; i++) {
        const unsigned long places[] = {6, 7, 18446744073709551615UL}, keys[] = {32, 33, 18446744073709551615UL}, times[] = {4294967295, 4294967296, 18446744073709551615UL};
        const unsigned long end[] = {places[i], keys[i], times[i]}, letter[] = {0, keys[i], 0}, space[] = {2, keys[i], 0}, late[] = {2, 0, times[i]};
        try_next(steps, 6, FZ_VNI, end, 0, 0, end, "a place past the last byte");
        try_next(steps, 6, FZ_VNI, letter, 2, 1, letter, "a letter in a full word");
        try_next(steps, 6, FZ_VNI, space, 0, FZ_PRESS(1, ' '), (const unsigned long[]){4, 0, 1}, "a space behind a full word");
        try_next(steps, 6, FZ_VNI, late, 11, 2, late, "a millisecond over the limit");
    }
    try_next(steps, 6, FZ_VNI, (const unsigned long[]){2, 1, 4294967294}, 0, FZ_PRESS(1, ' '), (const unsigned long[]){4, 0, 4294967295}, "milliseconds up to the limit");
    try_next(steps, 6, FZ_VNI, (const unsigned long[]){4, 31, 7}, 0, FZ_PRESS(0, '1'), (const unsigned long[]){6, 32, 7}, "the 32nd key of a word");
    try_next(steps, 6, 2, (const unsigned long[]){0, 0, 0}, 0, FZ_PRESS(0, 'a'), (const unsigned long[]){2, 1, 0}, "a letter in mode 2");
    try_next(steps, 6, 2, (const unsigned long[]){4, 0, 0}, 3, 5, (const unsigned long[]){4, 0, 0}, "a digit in mode 2");
}

int main(void) {
    unsigned char word[FZ_WORD + 1], before[FZ_WORD + 1], text[FZ_TEXT], long_text[FZ_TEXT + 1];
    unsigned long v, did;

    try_names();
    check(calls.start == fz_start && calls.replay == fz_replay, "the calls at their types", "the header");

    for (unsigned long i = 0; i < sizeof records / sizeof records[0]; i++)
        try_record(&records[i]);

    for (unsigned long i = 0; i < sizeof made / sizeof made[0]; i++)
        try_made(&made[i]);

    for (unsigned long i = 0; i < sizeof cards / sizeof cards[0]; i++)
        try_card(&cards[i]);

    try_macros();
    try_outcomes(FZ_TELEX, "vieejt", (const unsigned long[]){96, 96, 96, 33, 21, 96});
    try_outcomes(FZ_TELEX, "dodsz", (const unsigned long[]){96, 96, 48, 17, 64});
    try_outcomes(FZ_TELEX, "aww", (const unsigned long[]){96, 34, 80});
    try_outcomes(FZ_TELEX, "uow", (const unsigned long[]){96, 96, 35});
    try_outcomes(FZ_VNI, "a1122", (const unsigned long[]){96, 17, 80, 96, 96});

    /* Refusals of fz_start: the length, then the mode. Nothing is written. A word of an older version has 104 bytes. */
    for (unsigned long i = 0; i < 5; i++) {
        const unsigned long lengths[] = {0, 104, 168, 169, 170};
        fill(word, FZ_WORD + 1, 0xAA);
        fill(before, FZ_WORD + 1, 0xAA);
        v = UNWRITTEN;
        if (lengths[i] == 169)
            check(fz_start(2, word, lengths[i], &v) == 1 && v == 0, "refusal 1", "fz_start of mode 2");
        else
            check(fz_start(2, word, lengths[i], &v) == 8 && v == 0, "refusal 8", "fz_start on another length");
        check(same(word, before, FZ_WORD + 1), "nothing is written", "fz_start refused");
    }

    /* Bytes that are no record: another length, or a mark of 2. */
    type_all(FZ_TELEX, "vieejt", word, text);
    word[FZ_WORD] = 0;
    try_refused(word, 0, 8, 0, "no bytes");
    try_refused(word, 104, 8, 0, "104 bytes, a word of an older version");
    try_refused(word, 168, 8, 0, "168 bytes");
    try_refused(word, 170, 8, 0, "170 bytes");
    try_broken(word, 3, 2, "a mark of 2");

    /* Records out of range, one condition at a time. */
    try_broken(word, 0, 2, "a mode of 2");
    try_broken(word, 1, 33, "33 letters");
    try_broken(word, 1, 7, "more letters than keys");
    try_broken(word, 2, 6, "a tone of 6");
    try_broken(word, 4, 33, "33 keys");
    try_broken(word, 5, 33, "33 keys that acted");
    try_broken(word, 7, 3, "counts that do not add up");
    try_broken(word, 8, '1', "a kept digit in Telex");
    try_broken(word, 40, 'V', "a letter by its capital's code");
    try_broken(word, 41, 1, "a circumflex on v");
    try_broken(word, 41, 16, "a letter's number that is none");
    try_wrong_places(word);
    try_unread(word);

    /* A new word has no keys, so that no place is one of theirs; a word of 32 letters uses every place. */
    type_all(FZ_VNI, "", word, text);
    try_wrong_places(word);
    try_broken(word, 168, 31, "a tone set by a key past the last");
    fill(word + 104, 64, 254);
    try_answered(word, "", 1, FZ_NOWHERE, 0, "a new word with other places");
    try_changes(word, 'A', (const struct change[]){{1, 1}, {4, 1}, {7, 1}, {8, 'A'}, {40, 'a'}, {41, 8}, {104, 0}, {136, NONE}}, 8, "a new word with other places");
    type_all(FZ_TELEX, "bbbbbbbbbbbbbbbbbbbbbbbbbbbbbbbb", word, text);
    try_wrong_places(word);
    for (unsigned char i = 0; i < 32; i++)
        check(word[104 + i] == i && word[136 + i] == NONE, "each letter by its own key", "32 times b");
    fill(word + 104, 32, 31);
    fill(word + 136, 33, 31);
    try_answered(word, "bbbbbbbbbbbbbbbbbbbbbbbbbbbbbbbb", 1, FZ_NOWHERE, 0, "32 letters by the last key");
    try_refused(word, FZ_WORD, 2, 32, "32 letters by the last key");
    type_all(FZ_TELEX, "vieejt", word, text);

    /* A key that the mode does not have: the number of keys already typed. */
    for (unsigned long i = 0; i < 3; i++) {
        const unsigned char bad[] = {'1', ' ', 0xC3};
        copy(before, word, FZ_WORD);
        fill(text, FZ_TEXT, '#');
        v = UNWRITTEN;
        check(fz_type(word, FZ_WORD, bad[i], &v) == 3 && v == 6, "refusal 3 with 6", "fz_type");
        v = did = UNWRITTEN;
        check(fz_type_and_show(word, FZ_WORD, bad[i], text, FZ_TEXT, &did, &v) == 3 && v == 6 && did == 0 && text[0] == '#', "refusal 3 with 6", "fz_type_and_show");
        check(same(word, before, FZ_WORD), "the word is as it was", "refusal 3");
    }

    /* No room for the text: the key is not typed. */
    type_all(FZ_TELEX, "vieej", word, text);
    copy(before, word, FZ_WORD);
    fill(text, FZ_TEXT, '#');
    v = did = UNWRITTEN;
    check(fz_type_and_show(word, FZ_WORD, 't', text, 5, &did, &v) == 4 && v == 6 && did == 0, "refusal 4 with 6", "fz_type_and_show");
    check(same(word, before, FZ_WORD) && text[0] == '#', "word and output are as they were", "refusal 4");
    check(fz_type_and_show(word, FZ_WORD, 't', text, 6, &did, &v) == 0 && v == 6 && did == 96 && same(text, bytes("việt"), 6) && text[6] == '#', "just enough room", "fz_type_and_show");

    /* A full word: 32 times a is 31 letters, closed; one more is refused, also where it is no key. */
    v = type_all(FZ_TELEX, "aaaaaaaaaaaaaaaaaaaaaaaaaaaaaaaa", word, text);
    check(v == 31 && word[1] == 31 && word[3] == 1 && word[4] == 32, "31 letters, closed", "32 times a");
    for (unsigned char i = 1; i < 31; i++)
        check(word[104] == 0 && word[104 + i] == i + 1 && word[136] == NONE && word[136 + i] == NONE, "the second a made no letter", "32 times a");
    try_refused(word, FZ_WORD, 2, 32, "a word of 32 keys");
    check(fz_type(word, FZ_WORD, '!', &v) == 2 && v == 32, "2 comes before 3", "a word of 32 keys");

    /* Refusals of fz_commit, in their order. */
    fill(long_text, FZ_TEXT + 1, 'a');
    v = UNWRITTEN;
    check(fz_commit(2, long_text, 33, long_text, 97, &v) == 1 && v == 0, "refusal 1", "fz_commit");
    v = UNWRITTEN;
    check(fz_commit(FZ_TELEX, long_text, 33, long_text, 97, &v) == 2 && v == 32, "refusal 2 with 32", "fz_commit");
    v = UNWRITTEN;
    check(fz_commit(FZ_TELEX, bytes("a1"), 2, long_text, 97, &v) == 2 && v == 96, "refusal 2 with 96", "fz_commit");
    v = UNWRITTEN;
    check(fz_commit(FZ_TELEX, bytes("a1"), 2, long_text, 96, &v) == 3 && v == 1, "refusal 3 with its place", "fz_commit");
    check(fz_commit(FZ_VNI, bytes("a1"), 2, bytes("\xC3\xA1"), 2, &v) == 0 && v == 0, "a digit is a key of VNI", "fz_commit");

    try_overlap();

    /* Spelling, there and back; and its refusals. */
    try_spelled("việt", "vieetj", "vie6t5");
    try_spelled("Đường", "Dduowngf", "D9uo7ng2");
    try_spelled("nghiêng", "nghieeng", "nghie6ng");
    try_spelled("QUÁ", "QUAs", "QUA1");

    /* The longest list there is: nine keys, into exactly FZ_LIST bytes, and into one less refusal 4 with 9. */
    try_spelled("nghiềng", "nghieengf", "nghie6ng2");
    for (unsigned char mode = FZ_TELEX; mode <= FZ_VNI; mode++) {
        const char *text_of_nine = "nghiềng";
        fill(text, FZ_TEXT, '#');
        v = UNWRITTEN;
        check(fz_spell(mode, bytes(text_of_nine), length(text_of_nine), text, 8, &v) == 4 && v == 9 && text[0] == '#', "into 8 bytes refusal 4 with 9", text_of_nine);
        v = UNWRITTEN;
        check(fz_spell(mode, bytes(text_of_nine), length(text_of_nine), text, 9, &v) == 0 && v == 9 && text[8] != '#' && text[9] == '#', "into 9 bytes", text_of_nine);
    }
    try_not_spelled("", 7, 1);
    try_not_spelled("a1", 6, 1);
    try_not_spelled("vi\xE1\xBB", 6, 2);
    try_not_spelled("tẽt", 7, 7);
    try_not_spelled("họá", 7, 8);
    try_not_spelled("qúa", 7, 9);
    v = UNWRITTEN;
    check(fz_spell(2, long_text, 97, text, FZ_TEXT, &v) == 1 && v == 0, "refusal 1", "fz_spell");
    v = UNWRITTEN;
    check(fz_spell(FZ_VNI, long_text, 97, text, FZ_TEXT, &v) == 2 && v == 96, "refusal 2 with 96", "fz_spell");

    try_recordings();

    printf("box: %d checks, %d failed\n", checks, failures);
    return failures != 0;
}
