/* refuse.c: a library to preload into a program, so that one of its calls fails. For tests alone.

   REFUSE_CALLS  the calls that are counted: "memory" (malloc and realloc), "read" or "write"
   REFUSE_NTH    which of them fails, from 1; 0: none
   REFUSE_SHORT  1: that read or write moves one byte in place of failing
   REFUSE_PIECE  the most bytes that any read or write moves; 0: all that are asked for
   REFUSE_COUNT  the file that gets the number of the calls counted, at the program's end
   REFUSE_TRIES  two descriptors, as "100 101": calls fail in children, so that what comes before them is run once. From the first one the
                 number of the next call is read, in a line. In front of that call the program forks: the child goes on with the failure;
                 once it has ended, its status, as of waitpid, is written to the second one, in a line, and the next number is read. Then
                 files are again where and as long as they were, and the program goes on without a failure. It ends where no number comes.

   It takes no memory and prints nothing. It needs the GNU C library, as the program does. */
#define _GNU_SOURCE
#include <errno.h>
#include <fcntl.h>
#include <stdlib.h>
#include <string.h>
#include <sys/stat.h>
#include <sys/syscall.h>
#include <sys/wait.h>
#include <unistd.h>

void *__libc_malloc(size_t size);
void *__libc_realloc(void *block, size_t size);

static long calls;

/* The settings. They are read once, since to read them takes longer than most calls. */
static const char *counted;
static long refused, is_short, most_moved;
static int asks = -1, answers = -1;

#define FILES 32 /* whose places are kept */

static long setting(const char *name) {
  const char *digits = getenv(name);
  return digits ? atol(digits) : 0;
}

/* Writes a number that isn't negative as a line. */
static void put(int file, unsigned long number) {
  char digits[24], *first = digits + sizeof digits;
  *--first = '\n';
  do *--first = (char)('0' + number % 10); while (number /= 10);
  syscall(SYS_write, file, first, digits + sizeof digits - first);
}

/* Reads which call fails next. */
static void ask(void) {
  char digit = 0;
  refused = 0;
  while (syscall(SYS_read, asks, &digit, 1) == 1 && digit != '\n') refused = 10 * refused + (digit - '0');
  if (!refused) _exit(0);
}

/* Forks. In the child, which is to go on with the failure, it answers 1; in the program, once that has ended, 0. */
static int is_child(void) {
  off_t places[FILES];
  struct stat lengths[FILES];
  for (int file = 0; file < FILES; file++) {
    places[file] = lseek(file, 0, SEEK_CUR);
    if (fstat(file, &lengths[file])) places[file] = -1;
  }
  pid_t child = fork();
  if (!child) {
    close(asks);
    close(answers);
    asks = answers = -1;
    return 1;
  }
  int status = 255 << 8;
  while (child > 0 && waitpid(child, &status, 0) < 0 && errno == EINTR) {}
  put(answers, status);
  ask();
  for (int file = 0; file < FILES; file++) {
    if (places[file] < 0) continue;
    lseek(file, places[file], SEEK_SET);
    if (file == 1 || file == 2) (void)!ftruncate(file, lengths[file].st_size);
  }
  return 0;
}

static void settle(void) {
  if (counted) return;
  counted = getenv("REFUSE_CALLS");
  refused = setting("REFUSE_NTH");
  is_short = setting("REFUSE_SHORT");
  most_moved = setting("REFUSE_PIECE");
  const char *tries = getenv("REFUSE_TRIES");
  if (!tries) return;
  char *rest;
  asks = (int)strtol(tries, &rest, 10);
  answers = (int)strtol(rest, NULL, 10);
  ask();
}

/* Counts a call, and answers whether it is the one that fails. */
static int is_refused(const char *name) {
  settle();
  if (!counted || strcmp(counted, name) != 0 || ++calls != refused) return 0;
  return asks < 0 || is_child();
}

void *malloc(size_t size) {
  return is_refused("memory") ? NULL : __libc_malloc(size);
}

void *realloc(void *block, size_t size) {
  return is_refused("memory") ? NULL : __libc_realloc(block, size);
}

/* A read or a write, made by its system call. */
static ssize_t moved(const char *name, long call, int file, const void *bytes, size_t count) {
  int fails = is_refused(name);
  if (fails && !is_short) {
    errno = EIO;
    return -1;
  }
  size_t most = fails ? 1 : most_moved;
  return syscall(call, file, bytes, most && count > most ? most : count);
}

ssize_t read(int file, void *bytes, size_t count) {
  return moved("read", SYS_read, file, bytes, count);
}

ssize_t write(int file, const void *bytes, size_t count) {
  return moved("write", SYS_write, file, bytes, count);
}

/* Tells the number of calls. */
__attribute__((destructor)) static void tell(void) {
  const char *name = getenv("REFUSE_COUNT");
  int file = name ? open(name, O_WRONLY | O_CREAT | O_TRUNC, 0644) : -1;
  if (file < 0) return;
  put(file, (unsigned long)calls);
  close(file);
}
