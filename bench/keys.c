/*
 * Types a list of words, ROUNDS times over:
 *
 *     keys one|type|two|commit|spell|none|lines telex|vni|english|longest ROUNDS
 *
 * one: the call that types and shows, after every key; type: the call that types, alone; two: that call and the call that shows.
 * commit, spell: as one, and at the end of each word its commit, or its text spelled. none: no call, so that what this program
 * itself takes can be counted and taken off. Prints how many keys one round has. lines: types nothing, and prints the words as drill lines.
 */
#include "../box/felcantuzza.h"

/* of the C library; its headers are not needed for so little */
int printf(const char *format, ...);
int strcmp(const char *a, const char *b);
unsigned long strlen(const char *s);
long atol(const char *digits);

/* everyday syllables, each as its standard key list */
static const char *const telex[] = {
    "tooi", "laf", "nguowif", "Vieetj", "Nam", "truowngf", "hocj", "ddi", "lamf", "vieecj", "nhaf", "dduowngf", "nuowcs", "thuowng",
    "khoong", "dduowcj", "quee", "huowng", "muoons", "bieets", "nois", "ddocj", "vieets", "tieengs", "chuyeenj", "nghe", "ngayf", "ddeem",
    "xuaan", "haj", "thu", "ddoong", "giuwax", "quyeenr", "sachs", "hoaf", "binhf", "camr", "own", "banj", 0,
};
static const char *const vni[] = {
    "to6i", "la2", "nguo7i2", "Vie6t5", "Nam", "truo7ng2", "hoc5", "d9i", "lam2", "vie6c5", "nha2", "d9uo7ng2", "nuo7c1", "thuo7ng",
    "kho6ng", "d9uo7c5", "que6", "huo7ng", "muo6n1", "bie6t1", "noi1", "d9oc5", "vie6t1", "tie6ng1", "chuye6n5", "nghe", "ngay2", "d9e6m",
    "xua6n", "ha5", "thu", "d9o6ng", "giu7a4", "quye6n3", "sach1", "hoa2", "binh2", "cam3", "o7n", "ban5", 0,
};
static const char *const english[] = {
    "the", "school", "text", "keyboard", "computer", "lesson", "teacher", "window", "expect", "answer", "water", "house", "people", "first",
    "letter", "claus", "garden", "little", "write", "number", "morning", "friend", "because", "paper", "question", "simple", "river", "mother",
    "another", "street", "winter", "yellow", "orange", "through", "picture", "summer", "evening", "brother", "market", "silver", 0,
};
/* 32 keys, each but the first three asked about as a mark on the whole word and then appended: no word takes longer */
static const char *const longest[] = { "aeoaeoaeoaeoaeoaeoaeoaeoaeoaeoae", 0 };

static int is(const char *a, const char *b) { return strcmp(a, b) == 0; }

int main(int argc, char **argv)
{
    if (argc != 4) return 2;
    const char *const *words = is(argv[2], "telex") ? telex : is(argv[2], "vni") ? vni : is(argv[2], "english") ? english : longest;
    const unsigned char mode = is(argv[2], "vni") ? FZ_VNI : FZ_TELEX;
    if (is(argv[1], "lines")) {
        for (; *words; words++) printf("%c %s\n", mode == FZ_VNI ? 'V' : 'T', *words);
        return 0;
    }
    const int commits = is(argv[1], "commit"), spells = is(argv[1], "spell");
    const int both = is(argv[1], "one") || commits || spells, shows = is(argv[1], "two"), types = is(argv[1], "type") || shows;
    unsigned char fresh[FZ_WORD], word[FZ_WORD], text[FZ_TEXT], list[FZ_LIST];
    unsigned long n = 0, did = 0, keys = 0;
    unsigned refused = 0;
    fz_start(mode, fresh, sizeof fresh, &n);
    for (long round = atol(argv[3]); round > 0; round--) {
        keys = 0;
        for (const char *const *at = words; *at; at++) {
            for (unsigned i = 0; i < FZ_WORD; i++) word[i] = fresh[i];
            for (const char *key = *at; *key; key++, keys++) {
                if (both) refused |= fz_type_and_show(word, sizeof word, (unsigned char)*key, text, sizeof text, &did, &n);
                if (types) refused |= fz_type(word, sizeof word, (unsigned char)*key, &n);
                if (shows) refused |= fz_show(word, sizeof word, text, sizeof text, &n);
            }
            if (commits) refused |= fz_commit(mode, (const unsigned char *)*at, strlen(*at), text, n, &n);
            if (spells) fz_spell(mode, text, n, list, sizeof list, &n);
        }
    }
    printf("%lu\n", keys);
    return refused != 0;
}
