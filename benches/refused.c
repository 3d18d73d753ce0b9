/* Refuses memory to the program before which it is loaded (LD_PRELOAD), in copies of the program that are forked from it.
 *
 * Where REFUSED_STEP is 0, the program is copied at its requests for memory, counted from 1 from the start of `main` on: at each
 * of the first EACH, and at each STRIDEth behind them. Of these it is only at those with the rest REFUSED_PART by REFUSED_PARTS.
 * One copy is refused this request alone, another one this request and all later ones. The second is the same as the first, and
 * isn't made, where the first made no later request.
 *
 * Where REFUSED_CALLS is 1, nothing is refused: the program is copied at each of its reads and writes, and in the copy this one
 * call fails. Two more copies are made at the start of `main`: in one a write takes a byte, in the other none.
 *
 * Otherwise the program is copied at the start of `main` alone. The copies get more and more address space, from what the
 * program has there, up to the last of MOST_SAME copies in a row that end as without a limit. The first EVEN limits are
 * REFUSED_STEP bytes apart, and those behind them more and more.
 *
 * A copy runs to its end. One that was refused memory has to end with status 7, a prefix of the output and the one line `no
 * memory`, or with the status and the bytes of the program that isn't refused anything. REFUSED_STATUS is this status, and
 * REFUSED_OUT and REFUSED_ERR name files with these bytes. One of which a read failed has to end with status 5, and one of which
 * a write failed with status 6. Then the output has what was taken before that call and nothing more, and the error output too,
 * and behind that the line `read fault` or `write fault`. Where it was a line of the status 5, 6 or 7 that couldn't be written,
 * nothing comes behind it, and the status stays. What is written is compared and goes nowhere. An input comes a byte a call.
 *
 * Where REFUSED_WANTING isn't 0, it is the status with which a copy may end that was refused memory, whatever it wrote: that of a
 * test that fails. What a test asserts ends it by a signal.
 *
 * The file that REFUSED_REPORT names gets a line for each of the first wrong copies, and a last line with five counts: the
 * requests or calls that the program made, those that were refused or failed or the limits, endings for that, endings as without
 * it, and wrong ones. */
#define _GNU_SOURCE
#include <dlfcn.h>
#include <errno.h>
#include <fcntl.h>
#include <stdarg.h>
#include <stdint.h>
#include <stdio.h>
#include <stdlib.h>
#include <string.h>
#include <sys/mman.h>
#include <sys/resource.h>
#include <sys/stat.h>
#include <sys/syscall.h>
#include <sys/wait.h>
#include <unistd.h>

extern void *__libc_malloc(size_t);
extern void *__libc_realloc(void *, size_t);
extern void *__libc_calloc(size_t, size_t);

typedef int Main(int, char **, char **);
typedef int Start(Main *, int, char **, void (*)(void), void (*)(void), void (*)(void), void *);

/* What is refused: nothing, the request in hand, or it and all later ones. */
enum Refused { NOTHING, ONE, ALL };
/* How a copy ended, which is its status. To this it adds LATER, if it made a request after the one that it was refused. */
enum End { AS_WITHOUT, FOR_THIS, OTHER_STATUS, OTHER_OUTPUT, OTHER_ERRORS, LATER = 16 };
static const char *const ends[] = {"", "", "another status", "another output", "another error output"};

enum { EACH = 20000, STRIDE = 97 };
enum { MOST_SECONDS = 60, MOST_FILES = 256, MOST_TOLD = 5, MOST_SAME = 40, EVEN = 128 };
enum { READ_FAULT = 5, WRITE_FAULT = 6, NO_MEMORY = 7 };
static const char no_memory[] = "no memory\n", read_fault[] = "read fault\n", write_fault[] = "write fault\n";

/* The bytes that are wanted, and those that were written, of which there is room for a few more. */
struct Stream {
  char *wanted, *written;
  size_t length, count, room;
};

static struct Stream out, err;
static int status, wanting_status, report, counting, is_copy, later;
/* With calls that fail: whether they do, the status of the one that failed in this copy, whether that was a write of the error
 * output, what the outputs had got before it, and how many bytes a write takes at most. */
static int calls, failed, told;
static size_t out_before, err_before, most = SIZE_MAX;
static enum Refused refused;
static unsigned long part, parts, step, made, tried, wanting, without, wrong;
static off_t places[MOST_FILES];
static Main *real_main;

/* Writes to the report. It takes no memory, so that the program's heap is as it was. */
static void say(const char *form, ...) {
  char line[256];
  va_list rest;
  va_start(rest, form);
  vsnprintf(line, sizeof line, form, rest);
  va_end(rest);
  syscall(SYS_write, report, line, strlen(line));
}

static void give_up(const char *why) {
  say("%s\n", why);
  _exit(126);
}

static unsigned long number(const char *name) {
  const char *word = getenv(name);
  return word ? strtoul(word, NULL, 10) : 0;
}

/* Room that isn't taken from the program's heap. */
static char *pages(size_t size) {
  void *room = mmap(NULL, size, PROT_READ | PROT_WRITE, MAP_PRIVATE | MAP_ANONYMOUS, -1, 0);
  if (room == MAP_FAILED) give_up("no room");
  return room;
}

static void load(const char *name, struct Stream *stream) {
  struct stat found;
  int file = open(getenv(name), O_RDONLY);
  if (file < 0 || fstat(file, &found) != 0) give_up(name);
  stream->length = found.st_size;
  stream->room = stream->length + sizeof write_fault;
  stream->wanted = pages(stream->room);
  stream->written = pages(stream->room);
  if (pread(file, stream->wanted, stream->length, 0) != found.st_size) give_up(name);
  close(file);
}

static int is(const struct Stream *stream, const char *bytes, size_t length) {
  return stream->count == length && memcmp(stream->written, bytes, length) == 0;
}

/* Whether the stream has so many of its bytes, and behind them this line. */
static int is_front(const struct Stream *stream, size_t count, const char *line) {
  size_t length = strlen(line);
  return stream->count == count + length && count <= stream->length && memcmp(stream->written, stream->wanted, count) == 0 &&
         memcmp(stream->written + count, line, length) == 0;
}

/* How a copy ended of which a call failed. A line of the status 5, 6 or 7 is the last that is tried. */
static enum End end_of_failed(int own) {
  const char *line = told && status >= READ_FAULT ? "" : failed == READ_FAULT ? read_fault : write_fault;
  if (own != (told && status >= READ_FAULT ? status : failed)) return OTHER_STATUS;
  if (!is_front(&out, out_before, "")) return OTHER_OUTPUT;
  return is_front(&err, err_before, line) ? FOR_THIS : OTHER_ERRORS;
}

/* How a copy ended whose writes take no byte. Where the program writes nothing, it ends as it does otherwise. */
static enum End end_of_silent(int own) {
  int fails = out.length > 0 || (err.length > 0 && status < READ_FAULT);
  if (own != (fails ? WRITE_FAULT : status)) return OTHER_STATUS;
  if (out.count > 0) return OTHER_OUTPUT;
  if (err.count > 0) return OTHER_ERRORS;
  return out.length + err.length > 0 ? FOR_THIS : AS_WITHOUT;
}

/* How the program ended that ends with this status. */
static enum End end_of(int own) {
  if (most == 0) return end_of_silent(own);
  if (failed) return end_of_failed(own);
  if (wanting_status && own == wanting_status) return FOR_THIS;
  if (own == NO_MEMORY && status != NO_MEMORY) {
    if (out.count > out.length || memcmp(out.written, out.wanted, out.count) != 0) return OTHER_OUTPUT;
    return is(&err, no_memory, sizeof no_memory - 1) ? FOR_THIS : OTHER_ERRORS;
  }
  if (own != status) return OTHER_STATUS;
  if (!is(&out, out.wanted, out.length)) return OTHER_OUTPUT;
  return is(&err, err.wanted, err.length) ? AS_WITHOUT : OTHER_ERRORS;
}

/* Tells of a wrong copy. */
static void tell(const char *where, const char *what, int which) {
  if (++wrong <= MOST_TOLD) say("%s %lu: %s %d\n", where, step ? tried : made, what, which);
}

/* Counts how a copy ended. */
static void judge(const char *where, int how) {
  enum End end = WEXITSTATUS(how) & ~LATER;
  if (WIFSIGNALED(how))
    tell(where, "signal", WTERMSIG(how));
  else if (end == AS_WITHOUT)
    ++without;
  else if (end == FOR_THIS)
    ++wanting;
  else
    tell(where, end <= OTHER_ERRORS ? ends[end] : "status", WEXITSTATUS(how));
}

/* Copies the program. Whether this is the copy, which is refused that; the program comes back when the copy has ended. */
static int copied(enum Refused which, int *how) {
  struct rlimit limit = {MOST_SECONDS, MOST_SECONDS};
  pid_t copy = fork();
  if (copy == 0) {
    is_copy = 1;
    refused = which;
    setrlimit(RLIMIT_CPU, &limit);
    return 1;
  }
  if (copy < 0 || waitpid(copy, how, 0) != copy) give_up("no copy");
  return 0;
}

/* Whether the request in hand is refused. */
static int refuses(void) {
  int how;
  if (!counting || step || calls) return 0;
  if (is_copy) {
    later = 1;
    return refused == ALL;
  }
  if (++made % parts != part || (made > EACH && made % STRIDE != 0)) return 0;
  ++tried;
  if (copied(ONE, &how)) return 1;
  judge("refused request", how);
  if (WIFEXITED(how) && !(WEXITSTATUS(how) & LATER)) {
    judge("refused requests from", how);
    return 0;
  }
  if (copied(ALL, &how)) return 1;
  judge("refused requests from", how);
  return 0;
}

void *malloc(size_t size) { return refuses() ? NULL : __libc_malloc(size); }
void *calloc(size_t count, size_t size) { return refuses() ? NULL : __libc_calloc(count, size); }
void *realloc(void *old, size_t size) { return refuses() ? NULL : __libc_realloc(old, size); }

/* Whether the read or write in hand fails, which gives this status. */
static int fails(const char *where, int fault) {
  int how;
  if (!calls || is_copy) return 0;
  ++made;
  ++tried;
  if (!copied(NOTHING, &how)) {
    judge(where, how);
    return 0;
  }
  failed = fault;
  out_before = out.count;
  err_before = err.count;
  errno = EIO;
  return 1;
}

/* Keeps as many of the bytes as there is room for. Where it is full, more was written than is wanted. */
static ssize_t keep(struct Stream *stream, const void *bytes, size_t count) {
  size_t room = stream->room - stream->count, taken = count < most ? count : most, kept = taken < room ? taken : room;
  memcpy(stream->written + stream->count, bytes, kept);
  stream->count += kept;
  return taken;
}

ssize_t __write(int file, const void *bytes, size_t count) {
  if (!counting || (file != 1 && file != 2)) return syscall(SYS_write, file, bytes, count);
  if (fails(file == 1 ? "failed write" : "failed write of an error", WRITE_FAULT)) {
    told = file == 2;
    return -1;
  }
  return keep(file == 1 ? &out : &err, bytes, count);
}
ssize_t write(int file, const void *bytes, size_t count) { return __write(file, bytes, count); }

/* A copy has a place of its own in each file. */
ssize_t read(int file, void *into, size_t count) {
  ssize_t got;
  if (!counting || file < 0 || file >= MOST_FILES) return syscall(SYS_read, file, into, count);
  if (fails("failed read", READ_FAULT)) return -1;
  got = pread(file, into, file == 0 && count > 1 ? 1 : count, places[file]);
  if (got > 0) places[file] += got;
  return got;
}
int close(int file) {
  if (file >= 0 && file < MOST_FILES) places[file] = 0;
  return syscall(SYS_close, file);
}

/* The bytes of address space that the program has. */
static unsigned long space(void) {
  char text[64] = "";
  int file = open("/proc/self/statm", O_RDONLY);
  if (file < 0 || syscall(SYS_read, file, text, sizeof text - 1) <= 0) give_up("no /proc/self/statm");
  close(file);
  return strtoul(text, NULL, 10) * sysconf(_SC_PAGESIZE);
}

/* How far the limit of this number is from the first. */
static unsigned long distance(unsigned long number) { return step * (number < EVEN ? number : number * number / EVEN); }

/* Copies the program at each limit. Whether this is a copy. */
static int limits(void) {
  unsigned long least = space(), same = 0, before;
  int how;
  while (same < MOST_SAME) {
    struct rlimit limit = {least + distance(tried++), RLIM_INFINITY};
    if (copied(NOTHING, &how)) {
      setrlimit(RLIMIT_AS, &limit);
      return 1;
    }
    before = without;
    judge("limit", how);
    same = without > before ? same + 1 : 0;
  }
  return 0;
}

/* Copies the program with writes that take so many bytes. Whether this is the copy. */
static int copied_with(size_t bytes) {
  int how;
  if (copied(NOTHING, &how)) {
    most = bytes;
    return 1;
  }
  ++tried;
  judge("writes of bytes", how);
  return 0;
}

static int swept_main(int count, char **words, char **environment) {
  enum End end = AS_WITHOUT;
  report = open(getenv("REFUSED_REPORT"), O_WRONLY | O_CREAT | O_APPEND, 0600);
  status = number("REFUSED_STATUS");
  wanting_status = number("REFUSED_WANTING");
  part = number("REFUSED_PART");
  parts = number("REFUSED_PARTS");
  step = number("REFUSED_STEP");
  calls = number("REFUSED_CALLS");
  load("REFUSED_OUT", &out);
  load("REFUSED_ERR", &err);
  if (calls && !copied_with(1)) copied_with(0);
  if (!step || limits()) {
    counting = 1;
    end = end_of(real_main(count, words, environment));
    counting = 0;
  }
  if (is_copy) _exit(later ? end | LATER : end);
  if (end != AS_WITHOUT) tell("without refusal", ends[end], end);
  say("%lu %lu %lu %lu %lu\n", made, tried, wanting, without, wrong);
  _exit(0);
}

int __libc_start_main(Main *main, int count, char **words, void (*init)(void), void (*fini)(void), void (*rtld)(void),
                      void *top) {
  Start *start = (Start *)dlsym(RTLD_NEXT, "__libc_start_main");
  real_main = main;
  return start(swept_main, count, words, init, fini, rtld, top);
}
