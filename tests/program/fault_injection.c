/* Loaded before the C library: lets a growth of memory fail that was asked for, and reads and writes do little at a
   time, be interrupted or fail.
   A test asks for a growth by taking a block of ASK + n bytes: from then on the n-th growth is refused. A block of TELL
   bytes is refused where that refusal came; both end the count. The crate fault_injection has the other side of this.
   For a program as it is, the environment asks, each by a number behind FAULT_INJECTION_:
   TURN           its n-th growth is refused, counted from its start
   FROM_READ      1: it is counted from the first read on
   TOLD           a byte is written to this file descriptor where the refusal comes
   READ, WRITE    a read or write moves at most so many bytes
   INTERRUPTED    1: each read and each write is interrupted once before it is made
   READ_FAILS     behind so many bytes a read of the file descriptor READ_OF (0) fails
   WRITE_FAILS    behind so many bytes a write to the standard output fails
   TAKES_NOTHING  1: there it takes nothing in place of failing
   NO_WORDS       1: there are no random words
   KILLED_AT      the process is killed before its n-th call on files is made
   FAILS_AT       its n-th call on files fails
   FAILS_AGAIN_AT its n-th call on files fails for another reason
   LOSES          1: before the process is killed, and at its end, what is not synced is lost: a file that it wrote and did not sync
                  afterwards is emptied, and a rename whose folder it did not sync afterwards is undone */
typedef unsigned long size_t;
typedef long ssize_t;
extern void *__libc_malloc(size_t), *__libc_realloc(void *, size_t);
extern char *getenv(const char *);
extern long syscall(long, ...);
extern int *__errno_location(void);
enum { ASK = 0x5eed0000, TELL = 0x5eedffff, SYS_GETRANDOM = 318, INTERRUPT = 4, FAULT = 5, DENIED = 13, SIGNAL_KILL = 9 };
enum { SYS_READ = 0, SYS_WRITE = 1, SYS_OPEN = 2, SYS_GETPID = 39, SYS_KILL = 62, SYS_FSYNC = 74, SYS_RENAME = 82, SYS_UNLINK = 87 };
enum { SYS_TRUNCATE = 76, SYS_LINK = 86, SYS_READLINK = 89, SYS_FCHMOD = 91, SYS_LCHOWN = 94, SYS_STATX = 332 };
enum { SYS_STAT = 4, SYS_FSTAT = 5, PATH = 4096, OPENED = 64, RENAMED = 16, STAT = 32 };
static long left, came, begun, interrupted_reads, interrupted_writes, given, taken, calls;

/* The number that the environment has behind this name, or -1. */
static long asked(const char *name) {
  const char *digits = getenv(name);
  long number = 0;
  if (!digits || !*digits) return -1;
  for (; *digits; digits++) number = number * 10 + (*digits - '0');
  return number;
}

static void begin(int is_read) {
  if (begun || (!is_read && asked("FAULT_INJECTION_FROM_READ") == 1)) return;
  begun = 1;
  if (asked("FAULT_INJECTION_TURN") > 0) left = asked("FAULT_INJECTION_TURN");
}

static void tell(void) {
  long told = asked("FAULT_INJECTION_TOLD");
  came = 1;
  if (told > 0) syscall(SYS_WRITE, told, "!", 1);
}

static int fails(size_t size) {
  begin(0);
  if (size == TELL) { int was = came; left = came = 0; return was; }
  if (size > ASK && size < TELL) { left = size - ASK; came = 0; return 0; }
  if (left && !--left) { tell(); return 1; }
  return 0;
}
void *malloc(size_t size) { return fails(size) ? 0 : __libc_malloc(size); }
void *realloc(void *block, size_t size) { return fails(size) ? 0 : __libc_realloc(block, size); }

static ssize_t refused(int error) { *__errno_location() = error; return -1; }

/* The files that were opened, by their present paths, and the renames, each with a link to the file that had the name before. */
static struct opened { char path[PATH]; int file, is_written; } opened[OPENED];
static struct renamed { char from[PATH], to[PATH], old[PATH]; int has_old, is_synced; } renamed[RENAMED];
static long opens, renames;

static int loses(void) { return asked("FAULT_INJECTION_LOSES") == 1; }

static int is_same(const char *one, const char *other) {
  for (; *one && *one == *other; one++) other++;
  return *one == *other;
}

/* Appends a text at this place of a path, and returns the end. */
static size_t put(char *path, size_t at, const char *text) {
  for (; *text && at < PATH - 1; at++) path[at] = *text++;
  path[at] = 0;
  return at;
}

/* Whether an open file is the one at this path, by the numbers of its device and of its inode. */
static int is_at(int file, const char *path) {
  unsigned long one[STAT], other[STAT];
  return syscall(SYS_FSTAT, file, one) == 0 && syscall(SYS_STAT, path, other) == 0 && one[0] == other[0] && one[1] == other[1];
}

/* Whether an open file is the folder of this path. */
static int is_folder_of(int file, const char *path) {
  char folder[PATH];
  size_t end = put(folder, 0, path);
  while (end && folder[end - 1] != '/') end--;
  folder[end] = 0;
  return is_at(file, end ? folder : ".");
}

static void note_open(const char *path, int file) {
  if (!loses() || file < 0 || opens == OPENED) return;
  for (long at = 0; at < opens; at++) if (opened[at].file == file) opened[at].file = -1;
  put(opened[opens].path, 0, path);
  opened[opens++].file = file;
}

static void note_write(int file) {
  for (long at = 0; at < opens; at++) if (opened[at].file == file) opened[at].is_written = 1;
}

/* A file is removed: it has nothing to lose. */
static void forget(const char *path) {
  for (long at = 0; at < opens; at++) if (is_same(opened[at].path, path)) opened[at].is_written = 0;
}

static void note_sync(int file) {
  for (long at = 0; at < opens; at++) if (opened[at].is_written && is_at(file, opened[at].path)) opened[at].is_written = 0;
  for (long at = 0; at < renames; at++) {
    if (renamed[at].is_synced || !is_folder_of(file, renamed[at].to)) continue;
    renamed[at].is_synced = 1;
    if (renamed[at].has_old) syscall(SYS_UNLINK, renamed[at].old);
  }
}

/* A file has another name. */
static void move(const char *from, const char *to) {
  for (long at = 0; at < opens; at++) if (is_same(opened[at].path, from)) put(opened[at].path, 0, to);
}

/* Renames a file, and keeps the file that had the name before until the folder is synced. */
static int rename_kept(const char *from, const char *to) {
  struct renamed *it = &renamed[renames];
  if (!loses() || renames == RENAMED) return (int)syscall(SYS_RENAME, from, to);
  put(it->from, 0, from);
  put(it->to, 0, to);
  put(it->old, put(it->old, 0, to), ".old");
  it->has_old = syscall(SYS_LINK, to, it->old) == 0;
  if (syscall(SYS_RENAME, from, to) != 0) {
    int error = *__errno_location();
    if (it->has_old) syscall(SYS_UNLINK, it->old);
    return (int)refused(error);
  }
  forget(to);
  move(from, to);
  renames++;
  return 0;
}

/* Loses what is not synced. */
__attribute__((destructor)) static void lose(void) {
  for (; renames > 0; renames--) {
    struct renamed *it = &renamed[renames - 1];
    if (it->is_synced) continue;
    syscall(SYS_RENAME, it->to, it->from);
    move(it->to, it->from);
    if (it->has_old) syscall(SYS_RENAME, it->old, it->to);
  }
  for (; opens > 0; opens--) if (opened[opens - 1].is_written) syscall(SYS_TRUNCATE, opened[opens - 1].path, 0);
}

/* Counts a call on files. Kills the process if it is to end here, and returns the error with which the call fails, or 0. */
static int stops(void) {
  calls++;
  if (asked("FAULT_INJECTION_KILLED_AT") == calls) {
    lose();
    syscall(SYS_KILL, syscall(SYS_GETPID), SIGNAL_KILL);
  }
  if (asked("FAULT_INJECTION_FAILS_AT") == calls) return FAULT;
  return asked("FAULT_INJECTION_FAILS_AGAIN_AT") == calls ? DENIED : 0;
}

int open(const char *path, int flags, unsigned mode) {
  int error = stops(), file = error ? (int)refused(error) : (int)syscall(SYS_OPEN, path, flags, mode);
  note_open(path, file);
  return file;
}

int fsync(int file) {
  int error = stops(), status = error ? (int)refused(error) : (int)syscall(SYS_FSYNC, file);
  if (status == 0) note_sync(file);
  return status;
}

int unlink(const char *path) {
  int error = stops(), status = error ? (int)refused(error) : (int)syscall(SYS_UNLINK, path);
  if (status == 0) forget(path);
  return status;
}

int rename(const char *from, const char *to) {
  int error = stops();
  return error ? (int)refused(error) : rename_kept(from, to);
}

int fchmod(int file, unsigned mode) {
  int error = stops();
  return error ? (int)refused(error) : (int)syscall(SYS_FCHMOD, file, mode);
}

int lchown(const char *path, unsigned user, unsigned group) {
  int error = stops();
  return error ? (int)refused(error) : (int)syscall(SYS_LCHOWN, path, user, group);
}

ssize_t readlink(const char *path, char *bytes, size_t size) {
  int error = stops();
  return error ? refused(error) : syscall(SYS_READLINK, path, bytes, size);
}

int statx(int folder, const char *path, int flags, unsigned mask, void *found) {
  int error = stops();
  return error ? (int)refused(error) : (int)syscall(SYS_STATX, folder, path, flags, mask, found);
}

/* Whether this call is interrupted: every other one. */
static int interrupts(long *calls) { return asked("FAULT_INJECTION_INTERRUPTED") == 1 && (*calls)++ % 2 == 0; }

static size_t least(size_t size, long most) { return most >= 0 && size > (size_t)most ? (size_t)most : size; }

ssize_t read(int file, void *bytes, size_t size) {
  long fails_at = asked("FAULT_INJECTION_READ_FAILS"), fails_of = asked("FAULT_INJECTION_READ_OF");
  ssize_t count;
  int error;
  begin(1);
  if ((error = stops())) return refused(error);
  if (interrupts(&interrupted_reads)) return refused(INTERRUPT);
  if (file != (fails_of < 0 ? 0 : fails_of)) fails_at = -1;
  if (fails_at >= 0 && given >= fails_at) return refused(FAULT);
  size = least(size, asked("FAULT_INJECTION_READ"));
  if (fails_at >= 0) size = least(size, fails_at - given);
  count = syscall(SYS_READ, file, bytes, size);
  if (fails_at >= 0 && count > 0) given += count;
  return count;
}

ssize_t write(int file, const void *bytes, size_t size) {
  long fails_at = file == 1 ? asked("FAULT_INJECTION_WRITE_FAILS") : -1;
  ssize_t count;
  int error = stops();
  if (error) return refused(error);
  if (interrupts(&interrupted_writes)) return refused(INTERRUPT);
  if (fails_at >= 0 && taken >= fails_at) return asked("FAULT_INJECTION_TAKES_NOTHING") == 1 ? 0 : refused(FAULT);
  size = least(size, asked("FAULT_INJECTION_WRITE"));
  if (fails_at >= 0) size = least(size, fails_at - taken);
  count = syscall(SYS_WRITE, file, bytes, size);
  if (count > 0) note_write(file);
  if (fails_at >= 0 && count > 0) taken += count;
  return count;
}

int getentropy(void *bytes, size_t size) {
  if (asked("FAULT_INJECTION_NO_WORDS") == 1) return refused(FAULT);
  return syscall(SYS_GETRANDOM, bytes, size, 0) == (long)size ? 0 : -1;
}
