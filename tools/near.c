/* near K: copies a log of valgrind's lackey from input to output, without each load, store and fetch of a page that is among the K pages last accessed and was
   accessed so meanwhile (stack deletion; A. J. Smith, 1977): such an access finds its page where it is, and tells of no order of pages. Other lines stay. At the
   end it says on standard error how many accesses there were, and how many it kept. tools/lackey.py does the same in Python. */
#include <stdio.h>
#include <stdlib.h>
#include <string.h>

enum { LOAD = 1, STORE = 2, FETCH = 4, MOST = 256 };
static struct { unsigned long page; int kinds; } last[MOST]; /* the pages last accessed, and how, the last one first */
static int used, most;

/* What kind of access a line is; 0 for another line. */
static int kind_of(const char *line) {
  if (line[0] == 'I' && line[1] == ' ') return FETCH;
  if (line[0] != ' ' || line[1] == 0 || line[2] != ' ') return 0;
  return line[1] == 'L' ? LOAD : line[1] == 'S' ? STORE : line[1] == 'M' ? LOAD | STORE : 0;
}

/* Puts a page first, and says whether it was among the last ones and was accessed so. */
static int was_near(unsigned long page, int kind) {
  int i = 0;
  while (i < used && last[i].page != page) i++;
  int kinds = i < used ? last[i].kinds : 0;
  if (i == used) i = used < most ? used++ : used - 1;
  memmove(last + 1, last, (size_t)i * sizeof *last);
  last[0].page = page, last[0].kinds = kinds | kind;
  return (kinds & kind) == kind;
}

int main(int count, char **words) {
  static char line[1 << 16];
  unsigned long all = 0, kept = 0;
  most = count == 2 ? atoi(words[1]) : 0;
  if (most < 1 || most > MOST) return fprintf(stderr, "usage: near K, of 1 to %d\n", MOST), 2;
  while (fgets(line, sizeof line, stdin) != NULL) {
    int kind = kind_of(line);
    char *comma = kind ? strchr(line, ',') : NULL;
    if (comma != NULL) {
      unsigned long at = strtoul(line + 2, NULL, 16), length = strtoul(comma + 1, NULL, 10);
      all++;
      if (was_near(at >> 12, kind) && (at + length - 1) >> 12 == at >> 12) continue;
      kept++;
    }
    fputs(line, stdout);
  }
  fprintf(stderr, "%lu %lu\n", all, kept);
  return ferror(stdin) || fflush(stdout) != 0;
}
