/*
 * Felcantuzza: the keys of one word in, Vietnamese text out. This header includes nothing.
 *
 * WHAT IT DOES
 * The keyboard sends plain keys, and marks are typed as further keys: in Telex mode the keys v i e e j t
 * show the six bytes of one word, v i and a letter e with two marks and t. The library keeps one word as
 * 169 bytes that the caller lends to each call. Feed it one key at a time; after each key ask what to
 * show. At the end of the word ask whether to keep the shown text or to hand back the raw keys.
 * A whole drill, its keys and how long each took, can be recorded and replayed: RECORDINGS, below.
 *
 *     unsigned char word[FZ_WORD], text[FZ_TEXT];
 *     unsigned long did, n;
 *     fz_start(FZ_TELEX, word, sizeof word, &n);                              (a new word)
 *     fz_type_and_show(word, sizeof word, key, text, sizeof text, &did, &n);  (each key: text[0] to text[n - 1])
 *     fz_decision(word, sizeof word, &n);                                     (at its end: FZ_KEEP or FZ_RESTORE)
 *
 * EVERY CALL
 * - returns FZ_ANSWERED, which is 0, or else a refusal number, listed below;
 * - always writes *value: the answer's number, or the number that goes with the refusal;
 * - leaves every byte of word and output, and every number lent for a recording, as it was where it refuses;
 * - takes any bytes, any numbers, any mode and any key: nothing that stands in a buffer can break it;
 * - keeps nothing between calls, allocates nothing, and always returns.
 *
 * POINTERS
 * A buffer is a pointer and then its length in bytes; presses are a pointer and then how many they are, and a
 * summary is seven numbers. The caller sees to this much: a pointer is not null, also where the length is 0;
 * the bytes are there; and nobody else writes them during the call, or reads those that it may write. Two calls
 * may run at the same time on buffers of their own, and calls that take a word or a recording as const may share it.
 *
 * OVERLAP
 * What is lent to one call (word, keys, text, output, did, presses, recording, at, in_word, milliseconds, summary,
 * value) does not overlap, with one exception that is said at its call: the keys and the text of fz_commit. Nothing
 * is promised of any other two that share a byte, such as a text that is spelled into its own buffer, or a value
 * that lies inside a word.
 *
 * The archive is for x86-64 Linux. It calls the C function memcpy and nothing else. Text is UTF-8.
 */
#ifndef FELCANTUZZA_H
#define FELCANTUZZA_H

#define FZ_VERSION "0.20"

/* Lengths in bytes. */
#define FZ_WORD 169 /* a word */
#define FZ_KEYS 32  /* the keys of a word at most */
#define FZ_TEXT 96  /* a text at most: an output of this length is never too short */
#define FZ_LIST 9   /* the keys of a standard list at most */

/* Modes: how marks are typed. */
#define FZ_TELEX 0 /* by letters */
#define FZ_VNI 1   /* by digits */

/*
 * THE WORD: 169 bytes. What stands at which place. fz_start writes one. A caller may read it, store it and lend it again;
 * there is no other state. The raw keys, to be handed back, are word[FZ_AT_KEY_COUNT] bytes from word + FZ_AT_KEYS.
 * Bytes past the counts are not read, and stay as they were until a key or a letter comes there.
 */
#define FZ_AT_MODE 0          /* FZ_TELEX or FZ_VNI */
#define FZ_AT_LETTER_COUNT 1  /* how many letters, at most 32 */
#define FZ_AT_TONE 2          /* FZ_NO_TONE to FZ_DOT, one for the whole word */
#define FZ_AT_MARK 3          /* FZ_OPEN or FZ_CLOSED */
#define FZ_AT_KEY_COUNT 4     /* how many keys were typed, at most 32: the sum of the next three */
#define FZ_AT_ACTED 5         /* how many of them set a mark or cleared the tone */
#define FZ_AT_UNDONE 6        /* how many undid a mark */
#define FZ_AT_APPENDED 7      /* how many were added as letters */
#define FZ_AT_KEYS 8          /* to 39: the keys as typed, one byte each */
#define FZ_AT_LETTERS 40      /* to 103: the letters, two bytes each, low byte first */
#define FZ_AT_APPENDED_BY 104 /* to 135: for each letter the key that added it */
#define FZ_AT_SHAPED_BY 136   /* to 167: for each letter the last key that put a shape on it, or FZ_NO_KEY */
#define FZ_AT_TONED_BY 168    /* the last key that set the tone, or FZ_NO_KEY */

/*
 * WHICH KEY MADE WHICH LETTER. The bytes from 104 on name a key by its place among the keys, from 0: the letter at place i was added by
 * the key word[FZ_AT_KEYS + word[FZ_AT_APPENDED_BY + i]]. A key that shapes two letters at once has its place at both. A key that is added
 * as a letter may also shape one before it, in Telex the n of t h u o w n the u. Where a mark is undone or cleared no key is named.
 */
#define FZ_NO_KEY 255 /* no key shaped the letter, or set the tone */

/* A closed word takes every further key as a plain letter. */
#define FZ_OPEN 0
#define FZ_CLOSED 1

/* The letter at a place from 0, as one number: its small ASCII code (in VNI also a digit's), 256 times its shape, 2048 for a capital. */
#define FZ_LETTER(word, place) ((word)[FZ_AT_LETTERS + 2 * (place)] + 256 * (word)[FZ_AT_LETTERS + 2 * (place) + 1])
#define FZ_LETTER_BASE(letter) ((letter) % 256)
#define FZ_LETTER_SHAPE(letter) ((letter) / 256 % 8)
#define FZ_LETTER_CAPITAL(letter) ((letter) / 2048 % 2)

/* Shapes: marks that belong to a letter. */
#define FZ_PLAIN 0
#define FZ_CIRCUMFLEX 1
#define FZ_BREVE 2
#define FZ_HORN 3
#define FZ_STROKE 4

/* Tones: the mark that belongs to a word. */
#define FZ_NO_TONE 0
#define FZ_ACUTE 1
#define FZ_GRAVE 2
#define FZ_HOOK 3
#define FZ_TILDE 4
#define FZ_DOT 5

/*
 * REFUSALS, and the value that goes with each. Where several hold, the first in the order 8, 1, 2, 3, 6, 7, 5, 4 is given; of 2 the
 * one for keys comes first. What the calls for recordings refuse stands under RECORDINGS.
 */
#define FZ_ANSWERED 0         /* no refusal */
#define FZ_REFUSED_MODE 1     /* the mode is neither FZ_TELEX nor FZ_VNI: 0 */
#define FZ_REFUSED_LENGTH 2   /* FZ_KEYS for more than 32 keys, or for a key on a word that has 32; FZ_TEXT for a text of more than 96 bytes */
#define FZ_REFUSED_KEY 3      /* a byte that is no key of the mode (letters A-Z and a-z, in VNI also 0-9): its place in the keys, from 0; for a typed key the number of keys already typed */
#define FZ_REFUSED_ROOM 4     /* the output is too short: the bytes needed */
#define FZ_REFUSED_TEXT 5     /* the text is not exactly what the keys show: 0 */
#define FZ_REFUSED_LETTER 6   /* a byte of the text where no letter of the Vietnamese or the English alphabet starts: its place, from 0 */
#define FZ_REFUSED_SYLLABLE 7 /* the text is no syllable as it would be shown: FZ_TWO_TONES; else the verdict, 1 to 7; else FZ_TONE_ELSEWHERE */
#define FZ_REFUSED_WORD 8     /* the word is not 169 bytes, its mark is neither 0 nor 1, or it is out of range: 0 */
/*
 * Out of range: a count over 32, more letters than keys, counts at 5 to 7 that do not add up to the keys, a key or letter that the mode
 * does not have, a shape that its letter cannot carry, a digit as a capital, a tone or mode that does not exist; a key's place, of the
 * tone or of a letter below the count, that is not below the number of keys, unless it is FZ_NO_KEY for a shape or for the tone.
 */

/* Verdicts: is it a Vietnamese syllable, or what is the first thing wrong? */
#define FZ_VALID 0
#define FZ_NUCLEUS_EMPTY 1    /* no vowel */
#define FZ_INITIAL_UNKNOWN 2  /* unknown consonants in front */
#define FZ_LEFTOVERS 3        /* letters left over at the end */
#define FZ_INITIAL_UNFIT 4    /* the consonants in front do not go with the first vowel */
#define FZ_FINAL_UNKNOWN 5    /* unknown consonants at the end */
#define FZ_NUCLEUS_UNLISTED 6 /* the vowels are not listed, or not with these consonants */
#define FZ_TONE_UNFIT 7       /* the tone does not go with the end */
#define FZ_TWO_TONES 8        /* only with FZ_REFUSED_SYLLABLE: two letters carry a tone */
#define FZ_TONE_ELSEWHERE 9   /* only with FZ_REFUSED_SYLLABLE: the tone stands on another letter than it should */

#define FZ_NOWHERE 255 /* fz_place: no letter carries the tone */

/* Decisions. */
#define FZ_KEEP 0    /* keep the shown text */
#define FZ_RESTORE 1 /* hand back the raw keys */

/* What a key did, in one number: 16 times its kind, and the tone or the shape that it set. Taken apart: */
#define FZ_KIND(did) ((did) / 16)
#define FZ_TONE_SET(did) (FZ_KIND(did) == FZ_DID_TONE ? (did) % 16 : FZ_NO_TONE)
#define FZ_SHAPE_SET(did) (FZ_KIND(did) == FZ_DID_SHAPE ? (did) % 16 : FZ_PLAIN)

/* Its kinds. */
#define FZ_DID_NOTHING 0 /* the call was refused */
#define FZ_DID_TONE 1    /* set a tone, FZ_ACUTE to FZ_DOT */
#define FZ_DID_SHAPE 2   /* set a shape, FZ_CIRCUMFLEX, FZ_BREVE or FZ_HORN */
#define FZ_DID_STROKE 3  /* set a stroke */
#define FZ_DID_CLEAR 4   /* cleared the tone */
#define FZ_DID_UNDO 5    /* undid its own mark and closed the word */
#define FZ_DID_APPEND 6  /* was added as a letter */

/*
 * RECORDINGS. A recorded drill is numbers, one behind the other: the mode; then for each key, in the order in which they were pressed,
 * the milliseconds since the last key and the key. Key 32, the space, ends a word and is no key of it; two spaces in a row have an empty
 * word between them; the keys after the last space, if there are any, are a word too. Each word has at most 32 keys, of the mode, and all
 * milliseconds together, those of spaces too, are below 2 to the 32.
 *
 * A number stands in groups of seven bits, the low group first, one in a byte; the top bit of the byte is set where another group
 * follows. It is below 2 to the 32 and in its shortest form: at most five groups, and no last group 0 behind others. 5 is the byte 05,
 * 300 is AC 02, 70000 is F0 A2 04.
 *
 *     00 00 61 AC 02 61 05 20      (Telex: a; 300 milliseconds later a again; after 5 more a space)
 *
 * fz_record writes a recording and fz_replay replays one. fz_begin and fz_next read it press by press:
 *
 *     unsigned long at, mode, press, in_word = 0, milliseconds = 0;
 *     if (fz_begin(recording, length, &at, &mode) == FZ_ANSWERED)
 *         while (fz_next(recording, length, (unsigned char)mode, &at, &in_word, &milliseconds, &press) == FZ_ANSWERED && press)
 *             ...                                                        (FZ_PRESS_TIME(press), FZ_PRESS_KEY(press))
 */
#define FZ_SPACE 32 /* the key that ends a word */

/* A press as one number: the key, and 256 times the milliseconds since the last key. Made of the two, and taken apart: */
#define FZ_PRESS(milliseconds, key) (256 * (unsigned long)(milliseconds) + (unsigned char)(key))
#define FZ_PRESS_KEY(press) ((press) % 256)
#define FZ_PRESS_TIME(press) ((press) / 256)

/* The numbers of a summary. */
#define FZ_SUMMARY 7 /* how many */

/* What stands at which place of it. */
#define FZ_WORDS 0        /* how many words */
#define FZ_KEPT 1         /* of how many the shown text was kept */
#define FZ_RESTORED 2     /* of how many the raw keys were handed back */
#define FZ_ACTED 3        /* how many keys set a mark or cleared the tone */
#define FZ_UNDONE 4       /* how many undid a mark */
#define FZ_APPENDED 5     /* how many were added as letters */
#define FZ_MILLISECONDS 6 /* all milliseconds together */

/*
 * What is refused here. Of a recording the first fault from its front is given, with the place in bytes, from 0, where the number begins that
 * is refused; of presses the first fault, with the place of the press, from 0:
 *     1 the mode is neither FZ_TELEX nor FZ_VNI: 0;
 *     2 the 33rd key of a word;
 *     3 a key that is neither FZ_SPACE nor one of the mode;
 *     4 the output is too short, and nothing else is refused: the bytes needed.
 * Of one press 10 comes first, for the milliseconds and then for the key, then 2, 3, 11.
 */
#define FZ_REFUSED_NUMBER 10 /* no number of the form above, or none at all, where one should begin */
#define FZ_REFUSED_TIME 11   /* the milliseconds with which all together are 2 to the 32 or more */

/* The archive has 8 bytes for a length or a value. Where unsigned long has not, this does not compile. */
typedef char fz_unsigned_long_has_8_bytes[sizeof(unsigned long) == 8 ? 1 : -1];

#ifdef __cplusplus
extern "C" {
#endif

/* A new word in a mode. Value: 0. Refusals: 8 (here only for a length other than 169), 1. Overlap: none. */
unsigned char fz_start(unsigned char mode, unsigned char *word, unsigned long word_length, unsigned long *value);

/* One key typed. Value: what the key did. Refusals: 8, 2, 3. Overlap: none. */
unsigned char fz_type(unsigned char *word, unsigned long word_length, unsigned char key, unsigned long *value);

/*
 * One key typed and the word shown, in one call: the quick way. The text stands at the front of the output and the rest of
 * the output is as it was. Always written: *did, what the key did, 0 where the call is refused. Value: the bytes of text.
 * Refusals: 8, 2, 3, 4; after 4 the key is not typed. Overlap: none.
 */
unsigned char fz_type_and_show(unsigned char *word, unsigned long word_length, unsigned char key, unsigned char *output, unsigned long output_length, unsigned long *did, unsigned long *value);

/* The word's text at the front of the output. Value: the bytes of text. Refusals: 8, 4. Overlap: none. */
unsigned char fz_show(const unsigned char *word, unsigned long word_length, unsigned char *output, unsigned long output_length, unsigned long *value);

/* Is the word a Vietnamese syllable? Value: the verdict. Refusals: 8. Overlap: none. */
unsigned char fz_verdict(const unsigned char *word, unsigned long word_length, unsigned long *value);

/* Which letter carries the tone. Value: its place among the letters, from 0, or FZ_NOWHERE. Refusals: 8. Overlap: none. */
unsigned char fz_place(const unsigned char *word, unsigned long word_length, unsigned long *value);

/* At the end of a word. Value: FZ_KEEP or FZ_RESTORE. Refusals: 8. Overlap: none. */
unsigned char fz_decision(const unsigned char *word, unsigned long word_length, unsigned long *value);

/*
 * The same question of keys and the text that they are said to show, without a word: for a caller that keeps only these two.
 * Value: FZ_KEEP or FZ_RESTORE. Refusals: 1, 2 (FZ_KEYS), 2 (FZ_TEXT), 3, 5. Overlap: keys and text, which are only read, may
 * share bytes or be the same.
 */
unsigned char fz_commit(unsigned char mode, const unsigned char *keys, unsigned long keys_length, const unsigned char *text, unsigned long text_length, unsigned long *value);

/*
 * A shown syllable back to keys: its one standard key list at the front of the output, and the rest of the output as it was. Value: how many
 * keys, at most FZ_LIST. Refusals: 1, 2 (FZ_TEXT), 6, 7, 4. Overlap: none.
 */
unsigned char fz_spell(unsigned char mode, const unsigned char *text, unsigned long text_length, unsigned char *output, unsigned long output_length, unsigned long *value);

/*
 * A drill as a recording, at the front of the output, and the rest of the output as it was. Each of the count presses is made by FZ_PRESS; any number
 * may stand there. Value: the bytes written. Refusals: 1; 2, 3, 11 with the place of the press; 4. Overlap: none.
 */
unsigned char fz_record(unsigned char mode, const unsigned long *presses, unsigned long count, unsigned char *output, unsigned long output_length, unsigned long *value);

/* The mode in front of a recording. Written besides: *at, the place of the first press. Value: the mode. Refusals: 10, 1. Overlap: none. */
unsigned char fz_begin(const unsigned char *recording, unsigned long recording_length, unsigned long *at, unsigned long *value);

/*
 * The press at a place of a recording. The caller lends three numbers, at first those of fz_begin, 0 and 0, and hands them in again for the next press:
 * *at, the place; *in_word, how many keys the word that has begun has; *milliseconds, all so far. Each is moved on behind the press, and is as it was at
 * the end and where the call refuses. Any numbers may be handed in: a place past the last byte is the end, 32 keys or more are a full word, and another
 * mode than the two allows letters and the space. Value: the press, or 0 at the end; no press is 0. Refusals: 10, 2, 3, 11 with their places. Overlap: none.
 */
unsigned char fz_next(const unsigned char *recording, unsigned long recording_length, unsigned char mode, unsigned long *at, unsigned long *in_word, unsigned long *milliseconds, unsigned long *value);

/*
 * A recording replayed: each of its words typed from a new word and committed, so that the shown text or the raw keys, as fz_decision says, stand in
 * the output, each with a newline, one behind the other; the rest of the output is as it was. Written besides: the summary. Value: the bytes
 * written. Refusals: 10, 1, 2, 3, 11 with their places; 4. Overlap: none.
 */
unsigned char fz_replay(const unsigned char *recording, unsigned long recording_length, unsigned char *output, unsigned long output_length, unsigned long summary[FZ_SUMMARY], unsigned long *value);

#ifdef __cplusplus
}
#endif

#endif
