// The few things that the program asks of its system, for a page: memory, words, one input, two outputs. There are no
// threads, no files and no names of an environment. scripts/build/module links it with the program.
typedef unsigned long size;
typedef unsigned char byte;
typedef unsigned __int128 wide;

#define FROM_PAGE(name) __attribute__((import_module("host"), import_name(#name)))
#define FOR_PAGE(name) __attribute__((export_name(#name)))
FROM_PAGE(put) void host_put(long to, const byte *at, size count);
FROM_PAGE(end) void host_end(long status) __attribute__((noreturn));

// Memory. A block is of a size class, 2^k or 1.5 * 2^k bytes from 32 on. Before it stand 16 bytes, of which the first
// have the class. One that is given back is kept in the list of its class.
#define PAGE 65536
#define HEAD 16
#define LEAST 32
#define MORE 256           // pages that are asked for at a time, if there are as many
#define MOST (1ul << 34)   // no block is larger, so each class has a list, and the pages that are asked for fit 32 bits
extern byte __heap_base;
static byte *kept[64];
static size top;

static unsigned class_of(size bytes) {
  unsigned found = 0;
  for (size least = LEAST;; least *= 2, found += 2) {
    if (bytes <= least) return found;
    if (bytes <= least + least / 2) return found + 1;
  }
}

static size size_of(unsigned class) {
  size least = (size)LEAST << class / 2;
  return class & 1 ? least + least / 2 : least;
}

// Whether the memory has so many bytes, or could be made larger.
static int reaches(size end) {
  size have = __builtin_wasm_memory_size(0) * PAGE;
  if (end <= have) return 1;
  size lacking = (end - have + PAGE - 1) / PAGE, asked = lacking < MORE ? MORE : lacking;
  return __builtin_wasm_memory_grow(0, asked) != (size)-1 || __builtin_wasm_memory_grow(0, lacking) != (size)-1;
}

void *malloc(size bytes) {
  if (bytes > MOST) return 0;
  unsigned class = class_of(bytes + HEAD);
  byte *block = kept[class];
  if (block) {
    kept[class] = *(byte **)(block + HEAD);
    return block + HEAD;
  }
  if (!top) top = ((size)&__heap_base + 15) & ~15ul;
  if (!reaches(top + size_of(class))) return 0;
  block = (byte *)top;
  top += size_of(class);
  *(unsigned *)block = class;
  return block + HEAD;
}

void free(void *at) {
  if (!at) return;
  byte *block = (byte *)at - HEAD;
  *(byte **)at = kept[*(unsigned *)block];
  kept[*(unsigned *)block] = block;
}

void *realloc(void *at, size bytes) {
  if (!at) return malloc(bytes);
  size had = size_of(*(unsigned *)((byte *)at - HEAD)) - HEAD;
  if (bytes <= had) return at;
  void *larger = malloc(bytes);
  if (!larger) return 0;
  __builtin_memcpy(larger, at, had);
  free(at);
  return larger;
}

typedef struct { size is_there; void *at; } block;
static byte nothing[16] __attribute__((aligned(16)));

static block block_at(void *at) { return (block){ at != 0, at ? at : nothing }; }
block rattle_alloc(size bytes, size align) { return block_at(malloc(bytes ? bytes : align)); }
block rattle_realloc(void *at, size had, size bytes, size align) {
  return block_at(realloc(at, bytes ? bytes : align));
}
void rattle_dealloc(void *at) { free(at); }

// Words of the command line, each ended by 0, and the input. The page lays them into memory before it calls `run`.
static const byte *words_at, *input_at;
static size words_count, input_count, input_read;

FOR_PAGE(room) void *room(size bytes) { return malloc(bytes); }
FOR_PAGE(words) void words(const byte *at, size bytes, size count) { words_at = at, words_count = count; }
FOR_PAGE(input) void input(const byte *at, size bytes) { input_at = at, input_count = bytes, input_read = 0; }

int main(void);
FOR_PAGE(run) long run(void) { return main(); }

long rattle_arg(size index, byte *to, size most) {
  const byte *word = words_at;
  size count = 0;
  if (index >= words_count) return -1;
  for (; index; index--) while (*word++) { }
  while (word[count]) count++;
  if (count > most) return -2;
  __builtin_memcpy(to, word, count);
  return count;
}

long read(int from, void *to, size most) {
  size left = input_count - input_read, count = most < left ? most : left;
  __builtin_memcpy(to, input_at + input_read, count);
  input_read += count;
  return count;
}

long write(int to, const void *at, size count) {
  host_put(to, at, count);
  return count;
}

long __write(int to, const void *at, size count) { return write(to, at, count); }

// The system. What isn't there is refused as Linux refuses it.
enum { ENOENT = 2, ESRCH = 3, EAGAIN = 11, ENOSYS = 38 };
enum { SC_PAGESIZE = 30, SC_NPROCESSORS_CONF = 83, SC_NPROCESSORS_ONLN = 84 };
static int error;

static long refused(int why) {
  error = why;
  return -1;
}

void rattle_set_errno(int why) { error = why; }
int rattle_errno(void) { return error; }
long rattle_env(const void *name, void *to, size most) { return -1; }
long rattle_env_at(size index, void *to, size most) { return -1; }
void _exit(int status) { host_end(status); }
void abort(void) { host_end(134); }
int open(const char *path, int how, ...) { return refused(ENOENT); }
int close(int file) { return 0; }
int isatty(int file) { return 0; }
long syscall(long number, void *a, long b, long c, void *d, void *e) { return refused(ENOSYS); }
long __sysv_signal(int signal, long handler) { return 0; }

long sysconf(int what) {
  return what == SC_NPROCESSORS_ONLN || what == SC_NPROCESSORS_CONF ? 1 : what == SC_PAGESIZE ? PAGE : -1;
}

int sched_getaffinity(int process, size bytes, byte *set) {
  __builtin_memset(set, 0, bytes);
  set[0] = 1;
  return 0;
}

int sched_yield(void) { return 0; }
long pthread_self(void) { return 1; }
int pthread_create(void *thread, void *how, void *begin, void *given) { return EAGAIN; }
int pthread_join(long thread, void *answer) { return ESRCH; }
int pthread_detach(long thread) { return 0; }
int pthread_attr_init(void *how) { return 0; }
int pthread_attr_setguardsize(void *how, size bytes) { return 0; }
int pthread_attr_setstacksize(void *how, size bytes) { return 0; }
int pthread_attr_destroy(void *how) { return 0; }

// The proved program asks at its start whether the processor is one of x86-64-v2. Here there is none. It is told yes.
const unsigned *__x86_get_cpuid_feature_leaf(unsigned leaf) {
  static unsigned all[8];
  for (unsigned at = 0; at < 8; at++) all[at] = ~0u;
  return all;
}

// Arithmetic of 128 bits, by halves. None of these may be written with the operation that it gives.
typedef union { wide all; struct { size low, high; } half; } halves;

wide __multi3(wide left, wide right) {
  const halves a = { left }, b = { right };
  const size mask = 0xffffffff, a0 = a.half.low & mask, a1 = a.half.low >> 32;
  const size b0 = b.half.low & mask, b1 = b.half.low >> 32;
  const size p00 = a0 * b0, p01 = a0 * b1, p10 = a1 * b0, p11 = a1 * b1;
  const size middle = (p00 >> 32) + (p01 & mask) + (p10 & mask);
  halves out;
  out.half.low = (p00 & mask) | middle << 32;
  out.half.high = p11 + (p01 >> 32) + (p10 >> 32) + (middle >> 32);
  out.half.high += a.half.low * b.half.high + a.half.high * b.half.low;
  return out.all;
}

wide __ashlti3(wide value, int by) {
  const halves in = { value };
  halves out = in;
  if (by & 64) {
    out.half.low = 0;
    out.half.high = in.half.low << (by & 63);
  } else if (by) {
    out.half.low = in.half.low << by;
    out.half.high = in.half.high << by | in.half.low >> (64 - by);
  }
  return out.all;
}

wide __lshrti3(wide value, int by) {
  const halves in = { value };
  halves out = in;
  if (by & 64) {
    out.half.high = 0;
    out.half.low = in.half.high >> (by & 63);
  } else if (by) {
    out.half.high = in.half.high >> by;
    out.half.low = in.half.low >> by | in.half.high << (64 - by);
  }
  return out.all;
}

wide __udivti3(wide left, wide right) {
  const halves a = { left }, b = { right };
  halves quotient = { 0 }, rest = { 0 };
  for (int at = 127; at >= 0; at--) {
    const size bit = (at & 64 ? a.half.high : a.half.low) >> (at & 63) & 1;
    rest.half.high = rest.half.high << 1 | rest.half.low >> 63;
    rest.half.low = rest.half.low << 1 | bit;
    if (rest.half.high > b.half.high || (rest.half.high == b.half.high && rest.half.low >= b.half.low)) {
      rest.all -= b.all;
      if (at & 64) quotient.half.high |= 1ul << (at & 63);
      else quotient.half.low |= 1ul << (at & 63);
    }
  }
  return quotient.all;
}
