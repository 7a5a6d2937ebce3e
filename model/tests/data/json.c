/* Reads a JSON text, works on its tree, prints it and releases all: json.calls is a run of it (README.md). Numbers are whole and fit an int, and an
 * escape stands for the character after it. It ends with 0 if the numbers that it found and the length of the print are right. */
#include <stdlib.h>
#include <string.h>

enum kind { NOTHING, TRUTH, NUMBER, TEXT, LIST, TABLE };

struct node {
  enum kind kind;
  int number;         /* of a number, or of a truth */
  char *text;         /* of a text */
  char *name;         /* of a table's member */
  struct node *first; /* of a list or table */
  struct node *next;  /* in the same list or table */
};

struct reader {
  const char *at;
  int bad;
};

struct writer {
  char *bytes;
  size_t used, room;
};

static const char source[] =
    "{ \"title\": \"The \\\"rivers\\\"\", \"unit\": \"km\",\n"
    "  \"rivers\": [\n"
    "    { \"name\": \"Volga\", \"km\": 3530, \"to\": \"Caspian Sea\", \"delta\": true },\n"
    "    { \"name\": \"Danube\", \"km\": 2850, \"to\": \"Black Sea\" },\n"
    "    { \"name\": \"Tagus\", \"km\": 1007, \"to\": \"Atlantic\", \"delta\": false },\n"
    "    { \"name\": \"Po\", \"km\": 652, \"to\": \"Adriatic\" } ],\n"
    "  \"depths\": [[12, 9, -1], [], [-30, 4]], \"none\": {}, \"map\": null }\n";

static void *found(void *bytes) {
  if (bytes == NULL)
    exit(2);
  return bytes;
}

static struct node *fresh(enum kind kind) {
  struct node *n = found(calloc(1, sizeof(struct node)));
  n->kind = kind;
  return n;
}

/* Reading. */

static const char *after_blanks(const char *at) {
  while (*at == ' ' || *at == '\n')
    at++;
  return at;
}

static int take(struct reader *r, char c) {
  r->at = after_blanks(r->at);
  if (*r->at != c)
    return 0;
  r->at++;
  return 1;
}

static void expect(struct reader *r, char c) {
  if (!take(r, c))
    r->bad = 1;
}

static void expect_word(struct reader *r, const char *word) {
  for (; *word != 0 && *r->at == *word; word++)
    r->at++;
  if (*word != 0)
    r->bad = 1;
}

static const char *end_of_text(const char *at) {
  while (*at != '"' && *at != 0)
    at += *at == '\\' && at[1] != 0 ? 2 : 1;
  return at;
}

static void unescape(char *to, const char *from, const char *end) {
  for (; from < end; from++, to++) {
    if (*from == '\\')
      from++;
    *to = *from;
  }
  *to = 0;
}

static char *rest_of_text(struct reader *r) {
  const char *end = end_of_text(r->at);
  char *bytes = found(malloc((size_t)(end - r->at) + 1));
  unescape(bytes, r->at, end);
  r->at = end;
  expect(r, '"');
  return bytes;
}

static const char *after_digits(const char *at, int *number) {
  for (; *at >= '0' && *at <= '9'; at++)
    *number = 10 * *number + (*at - '0');
  return at;
}

static void read_number(struct reader *r, int *number) {
  int minus = take(r, '-');
  const char *end = after_digits(r->at, number);
  if (end == r->at)
    r->bad = 1;
  r->at = end;
  if (minus)
    *number = -*number;
}

static struct node *value(struct reader *r);

static void members(struct reader *r, struct node *parent, char close) {
  struct node **end = &parent->first;
  if (take(r, close))
    return;
  do {
    char *name = NULL;
    if (parent->kind == TABLE) {
      expect(r, '"');
      name = rest_of_text(r);
      expect(r, ':');
    }
    *end = value(r);
    (*end)->name = name;
    end = &(*end)->next;
  } while (!r->bad && take(r, ','));
  expect(r, close);
}

static struct node *value(struct reader *r) {
  struct node *n;
  if (take(r, '"')) {
    n = fresh(TEXT);
    n->text = rest_of_text(r);
  } else if (take(r, '{')) {
    n = fresh(TABLE);
    members(r, n, '}');
  } else if (take(r, '[')) {
    n = fresh(LIST);
    members(r, n, ']');
  } else if (*r->at == 'n') {
    n = fresh(NOTHING);
    expect_word(r, "null");
  } else if (*r->at == 't' || *r->at == 'f') {
    n = fresh(TRUTH);
    n->number = *r->at == 't';
    expect_word(r, n->number ? "true" : "false");
  } else {
    n = fresh(NUMBER);
    read_number(r, &n->number);
  }
  return n;
}

/* The tree. */

static int order(const char *a, const char *b) {
  for (; *a != 0 && *a == *b; a++)
    b++;
  return *a - *b;
}

static struct node *member(const struct node *n, const char *name) {
  struct node *m = n->first;
  while (m != NULL && order(m->name, name) != 0)
    m = m->next;
  return m;
}

static int sum(const struct node *n) {
  int total = n->kind == NUMBER ? n->number : 0;
  for (const struct node *m = n->first; m != NULL; m = m->next)
    total += sum(m);
  return total;
}

/* Puts the members of every table in the order of their names. */
static void sort_tables(struct node *n) {
  struct node *left = n->first;
  for (struct node *m = left; m != NULL; m = m->next)
    sort_tables(m);
  if (n->kind != TABLE)
    return;
  n->first = NULL;
  while (left != NULL) {
    struct node *m = left;
    struct node **place = &n->first;
    left = m->next;
    while (*place != NULL && order((*place)->name, m->name) < 0)
      place = &(*place)->next;
    m->next = *place;
    *place = m;
  }
}

static void release(struct node *n) {
  while (n->first != NULL) {
    struct node *m = n->first;
    n->first = m->next;
    release(m);
  }
  if (n->text != NULL)
    free(n->text);
  if (n->name != NULL)
    free(n->name);
  free(n);
}

/* Printing. */

static void put(struct writer *w, const char *bytes, size_t n) {
  if (w->used + n > w->room) {
    w->room = 2 * w->room + n;
    char *larger = found(malloc(w->room));
    memcpy(larger, w->bytes, w->used);
    free(w->bytes);
    w->bytes = larger;
  }
  memcpy(w->bytes + w->used, bytes, n);
  w->used += n;
}

static const char *end_of_plain(const char *at) {
  while (*at != 0 && *at != '"' && *at != '\\')
    at++;
  return at;
}

static void put_text(struct writer *w, const char *text) {
  put(w, "\"", 1);
  while (*text != 0) {
    const char *end = end_of_plain(text);
    put(w, text, (size_t)(end - text));
    text = end;
    if (*text != 0) {
      put(w, "\\", 1);
      put(w, text++, 1);
    }
  }
  put(w, "\"", 1);
}

static void put_number(struct writer *w, int number) {
  char digits[12];
  char *at = digits + sizeof digits;
  int rest = number < 0 ? -number : number;
  do
    *--at = (char)('0' + rest % 10);
  while ((rest /= 10) > 0);
  if (number < 0)
    *--at = '-';
  put(w, at, (size_t)(digits + sizeof digits - at));
}

static void put_node(struct writer *w, const struct node *n) {
  if (n->name != NULL) {
    put_text(w, n->name);
    put(w, ":", 1);
  }
  if (n->kind == NOTHING)
    put(w, "null", 4);
  else if (n->kind == TRUTH)
    put(w, n->number ? "true" : "false", n->number ? 4 : 5);
  else if (n->kind == NUMBER)
    put_number(w, n->number);
  else if (n->kind == TEXT)
    put_text(w, n->text);
  else {
    put(w, n->kind == TABLE ? "{" : "[", 1);
    for (const struct node *m = n->first; m != NULL; m = m->next) {
      if (m != n->first)
        put(w, ",", 1);
      put_node(w, m);
    }
    put(w, n->kind == TABLE ? "}" : "]", 1);
  }
}

int main(void) {
  char *document = found(malloc(sizeof source));
  memcpy(document, source, sizeof source);
  struct reader r = {document, 0};
  struct node *n = value(&r);
  free(document);
  int total = sum(member(n, "rivers"));
  sort_tables(n);
  struct writer w = {found(malloc(32)), 0, 32};
  put_node(&w, n);
  release(n);
  free(w.bytes);
  return !r.bad && total == 8039 && w.used == 302 ? 0 : 1;
}
