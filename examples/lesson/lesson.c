/*
 * A vocabulary exercise on lent memory, with a check at every allocation, release and pointer use.
 *
 * Built with -DMISTAKE=n it has one mistake, n from 1 to 10; without, it has none. Each place says which.
 */
#include <inttypes.h>
#include <stdio.h>
#include <string.h>

#include "areas.h"
#include "checks.h"

#ifndef MISTAKE
#define MISTAKE 0
#endif

enum { WORDS = 3, TRIES = 2, LETTERS = 8 };

/* The course's own data. These constants lie outside the areas: no check for them. */
static const struct word {
    const char *prompt;
    const char *solution;
    const char *hint;         /* after a wrong try; NULL for most words */
    const char *typed[TRIES]; /* what the learner types, try by try */
} words[WORDS] = {
    {"rumah", "house", NULL, {"horse", "house"}},
    {"membaca", "to read", NULL, {"read", ""}},
    {"matahari", "sun", "three letters", {"sunshine", "sun"}},
};

/* The record of a learner's answer. */
struct answer {
    uint32_t word;
    uint32_t tries;
    uint32_t right;
    uint32_t hint; /* a pointer to the hint on the heap, kept as its address; 0 where the word has none */
};

/* How many letters the learner has typed. A static object: zero before anything is written to it. */
static uint32_t *letters_typed;

/* String literals of the program, in the stack area. As in C, their type does not say that they may only be read. */
static char *to_word, *right_word, *wrong_word;

static char *new_literal(const char *text)
{
    char *literal = string_literal(text);

    CHECK_LITERAL(literal, (uint32_t)strlen(text) + 1);
    return literal;
}

/* A text of the course, on the heap; NULL where the course has none. */
static char *new_text(const char *constant)
{
    uint32_t length;
    char *text;

    if (constant == NULL)
        return NULL;
    length = (uint32_t)strlen(constant) + 1;
    text = heap_allocate(length);
    CHECK_RECORD(text, length);
    CHECK_WRITE(text, length, text);
    memcpy(text, constant, length);
    return text;
}

static uint32_t *new_numbers(uint32_t count)
{
    uint32_t length = count * (uint32_t)sizeof(uint32_t);
    uint32_t *numbers = heap_allocate(length);

    CHECK_RECORD(numbers, length);
    CHECK_WRITE(numbers, length, numbers);
    memset(numbers, 0, length);
    return numbers;
}

static void print_text(const char *text)
{
    uint32_t i;

    for (i = 0;; i++) {
        CHECK_READ(&text[i], 1, text);
        if (text[i] == 0)
            return;
        putchar(text[i]);
    }
}

static void print_hint(const struct answer *answer)
{
    const char *hint;

    CHECK_READ(&answer->hint, sizeof answer->hint, answer);
    hint = pointer_to(answer->hint);
    if (hint == NULL)
        return;
    CHECK_KEPT(&answer->hint, hint);
    printf("hint: ");
    print_text(hint);
    printf("\n");
}

static uint32_t same_text(const char *a, const char *b)
{
    uint32_t i;

    for (i = 0;; i++) {
        CHECK_READ(&a[i], 1, a);
        CHECK_READ(&b[i], 1, b);
        if (a[i] != b[i])
            return 0;
        if (a[i] == 0)
            return 1;
    }
}

/* The part that the learner has to type: a verb without its "to". */
static char *stem_of(char *text)
{
    uint32_t i;

    for (i = 0;; i++) {
        CHECK_READ(&to_word[i], 1, to_word);
        if (to_word[i] == 0)
            return &text[i];
        CHECK_READ(&text[i], 1, text);
        if (text[i] != to_word[i])
            return text;
    }
}

static void count_letters(uint32_t count)
{
    CHECK_READ(letters_typed, sizeof *letters_typed, letters_typed);
    CHECK_WRITE(letters_typed, sizeof *letters_typed, letters_typed);
    *letters_typed += count;
}

/* The learner types into a buffer of LETTERS bytes; what is too long is cut. */
static void type_in(char *buffer, const char *letters)
{
    uint32_t most = MISTAKE == 1 ? LETTERS : LETTERS - 1; /* 1: no room is left for the final zero, which goes into the neighbour */
    uint32_t i;

    for (i = 0; i < most && letters[i] != 0; i++) {
        CHECK_WRITE(&buffer[i], 1, buffer);
        buffer[i] = letters[i];
    }
    CHECK_WRITE(&buffer[i], 1, buffer);
    buffer[i] = 0;
    count_letters(i);
}

static void start_answer(struct answer *answer, uint32_t word, const char *hint)
{
    CHECK_WRITE(&answer->word, sizeof answer->word, answer);
    answer->word = word;
    if (MISTAKE != 2) { /* 2: the number of tries is used before it is written */
        CHECK_WRITE(&answer->tries, sizeof answer->tries, answer);
        answer->tries = 0;
    }
    CHECK_WRITE(&answer->right, sizeof answer->right, answer);
    answer->right = 0;
    CHECK_WRITE(&answer->hint, sizeof answer->hint, answer);
    answer->hint = address_of(hint);
    CHECK_KEEP(&answer->hint, hint);
}

static const char *verdict_of(uint32_t right)
{
    char *verdict = right ? right_word : wrong_word;

    if (MISTAKE == 9 && right) { /* 9: a capital letter goes into the literal itself */
        CHECK_WRITE(verdict, 1, verdict);
        verdict[0] = 'R';
    }
    return verdict;
}

/* One try: 1 if there is to be another. */
static int try_word(struct answer *answer, const char *prompt, const char *stem, char *typed)
{
    uint32_t tries, right;
    const char *verdict;

    CHECK_READ(&answer->tries, sizeof answer->tries, answer);
    tries = answer->tries;
    CHECK_READ(&answer->word, sizeof answer->word, answer);
    type_in(typed, words[answer->word].typed[tries]);
    right = same_text(typed, stem);
    verdict = verdict_of(right);
    tries++;
    print_text(prompt);
    printf(" = ");
    print_text(typed);
    printf(": ");
    print_text(verdict);
    printf("\n");
    CHECK_WRITE(&answer->tries, sizeof answer->tries, answer);
    answer->tries = tries;
    CHECK_WRITE(&answer->right, sizeof answer->right, answer);
    answer->right = right;
    return !right && tries < TRIES;
}

/* Two points for a word that is right at once, one at the second try. */
static void give_points(const struct answer *answer, uint32_t *points, uint32_t *tries)
{
    CHECK_READ(answer, sizeof *answer, answer);
    CHECK_WRITE(&points[answer->word], sizeof *points, points);
    points[answer->word] = answer->right ? TRIES + 1 - answer->tries : 0;
    CHECK_WRITE(&tries[answer->word], sizeof *tries, tries);
    tries[answer->word] = answer->tries;
}

/* The automatic objects of an exercise end. */
static void leave(const struct answer *answer, const char *typed)
{
    CHECK_REMOVE(answer);
    if (MISTAKE == 10) { /* 10: the buffer lies on the stack, where nothing may be freed */
        CHECK_FREE(typed);
        heap_release(typed);
    }
    CHECK_REMOVE(typed);
    stack_pop(typed);
}

static void exercise(uint32_t word, uint32_t *points, uint32_t *tries)
{
    char *prompt = new_text(words[word].prompt);
    char *solution = new_text(words[word].solution);
    char *hint = new_text(words[word].hint);
    char *stem = stem_of(solution);
    char *typed = stack_push(LETTERS);
    CHECK_RECORD(typed, LETTERS);
    struct answer *answer = stack_push(sizeof *answer);
    CHECK_RECORD(answer, sizeof *answer);

    start_answer(answer, word, hint);
    if (MISTAKE == 3) { /* 3: stem is still used */
        CHECK_FREE(solution);
        heap_release(solution);
    }
    if (MISTAKE == 8 && hint != NULL) { /* 8: another text takes the place, and the answer still has its pointer there */
        CHECK_FREE(hint);
        heap_release(hint);
        hint = new_text("well done");
    }
    while (try_word(answer, prompt, stem, typed))
        print_hint(answer);
    give_points(answer, points, tries);

    leave(answer, typed);
    CHECK_FREE(prompt);
    heap_release(prompt);
    if (MISTAKE == 7) /* 7: the constant itself, which is no block */
        hint = (char *)words[word].hint;
    CHECK_FREE(hint); /* NULL for most words: nothing happens */
    heap_release(hint);
    if (MISTAKE == 4) { /* 4: released here and once more below */
        CHECK_FREE(solution);
        heap_release(solution);
    }
    if (MISTAKE == 5) /* 5: stem may lie inside the block */
        solution = stem;
    CHECK_FREE(solution);
    heap_release(solution);
}

static uint32_t sum_of(const uint32_t *numbers, uint32_t count)
{
    uint32_t sum = 0;
    uint32_t i;

    for (i = 0; i < count; i++) {
        CHECK_READ(&numbers[i], sizeof *numbers, numbers);
        sum += numbers[i];
    }
    return sum;
}

static void print_result(const uint32_t *points, const uint32_t *tries)
{
    uint32_t last = MISTAKE == 6 ? (WORDS - 1) * (uint32_t)sizeof *points : WORDS - 1; /* 6: an index in bytes reaches another array */

    CHECK_READ(&points[last], sizeof *points, points);
    printf("%" PRIu32 " of %d points in %" PRIu32 " tries, %" PRIu32 " for the last word\n", sum_of(points, WORDS), WORDS * TRIES,
           sum_of(tries, WORDS), points[last]);
    CHECK_READ(letters_typed, sizeof *letters_typed, letters_typed);
    printf("%" PRIu32 " letters typed\n", *letters_typed);
}

int main(void)
{
    uint32_t *points, *tries;
    uint32_t word;

    areas_start();
    CHECK_START();
    letters_typed = static_object(sizeof *letters_typed);
    CHECK_STATIC(letters_typed, sizeof *letters_typed);
    to_word = new_literal("to ");
    right_word = new_literal("right");
    wrong_word = new_literal("wrong");
    points = new_numbers(WORDS);
    tries = new_numbers(WORDS);
    for (word = 0; word < WORDS; word++)
        exercise(word, points, tries);
    print_result(points, tries);
    CHECK_FREE(tries);
    heap_release(tries);
    CHECK_FREE(points);
    heap_release(points);
    CHECK_REMOVE(wrong_word);
    CHECK_REMOVE(right_word);
    CHECK_REMOVE(to_word);
    CHECK_REMOVE(letters_typed);
    CHECK_END();
    return 0;
}
