/* A command with an oracle of its own: it writes what happens to it into ROOM/trace, a line each,
   and locks say whether more run beside it than may.

       nights_job ROOM GROUP KEY MILLISECONDS STATUS FAILS FLAGS

   It runs so long and ends with this status, and with 3 in its first FAILS tries. Flags: i ignores
   SIGTERM, z answers it with status 0, c closes what it inherits, b leaves a process in its group,
   h one that ignores SIGTERM, d one in a session of its own, w waits while ROOM has a file `hold`;
   - is none. A line is
   `WHAT GROUP KEY PID MICROSECONDS ..` by the monotonic clock:

       B .. PROCESS-GROUP TRIES NIGHT_TRY FOLDER WORD OUTPUT NICE KILOBYTES
                     it begins (its tries so far, with this one; the name of its standard output;
                     its niceness, and how much memory it may have, 0 for any)
       E .. STATUS                                       it ends so
       T ..                                              SIGTERM came
       G .. FLAG                                         a process that it leaves begins
       V .. WHAT                                         what may not be, is: key, group, all, left

   ROOM/bounds has how many may run at a time: of all, and `GROUP N` for each group with a limit. */
#define _GNU_SOURCE
#include <fcntl.h>
#include <signal.h>
#include <stdio.h>
#include <stdlib.h>
#include <string.h>
#include <sys/file.h>
#include <sys/resource.h>
#include <sys/stat.h>
#include <sys/wait.h>
#include <time.h>
#include <unistd.h>

#define MOST_LOCKS 8
#define LEFT_SECONDS 100

static const char *group, *key, *flags;
static int trace, held[MOST_LOCKS], locks;

static int has(char flag) { return strchr(flags, flag) != NULL; }

static void tell(const char *what, const char *rest) {
  struct timespec now;
  char line[512];
  clock_gettime(CLOCK_MONOTONIC, &now);
  int length = snprintf(line, sizeof line, "%s %s %s %d %lld%s\n", what, group, key, (int)getpid(),
                        now.tv_sec * 1000000LL + now.tv_nsec / 1000, rest);
  if (write(trace, line, length) != length) _exit(99);
}

/* Whether this lock could be taken. It is held until this process ends. */
static int lock(const char *name) {
  int file = open(name, O_RDWR | O_CREAT | O_CLOEXEC, 0666);
  if (file < 0) _exit(98);
  if (flock(file, LOCK_EX | LOCK_NB)) {
    close(file);
    return 0;
  }
  if (locks < MOST_LOCKS) held[locks++] = file;
  return 1;
}

/* Whether one of this many locks could be taken. */
static int lock_one(const char *kind, const char *of, int many) {
  char name[200];
  for (int at = 0; at < many; at++) {
    snprintf(name, sizeof name, "locks/%s.%s.%d", kind, of, at);
    if (lock(name)) return 1;
  }
  return 0;
}

static void look_beside(void) {
  char name[200];
  int most = 0, many;
  snprintf(name, sizeof name, "locks/left.%s.%s", group, key);
  int left = open(name, O_RDWR | O_CLOEXEC);
  if (left >= 0) {
    if (flock(left, LOCK_EX | LOCK_NB)) tell("V", " left");
    close(left);
  }
  snprintf(name, sizeof name, "locks/key.%s.%s", group, key);
  if (!lock(name)) tell("V", " key");
  FILE *bounds = fopen("bounds", "re");
  if (!bounds || fscanf(bounds, "%d", &most) != 1) _exit(97);
  if (!lock_one("all", "", most)) tell("V", " all");
  while (fscanf(bounds, "%199s %d", name, &many) == 2)
    if (!strcmp(name, group) && !lock_one("group", group, many)) tell("V", " group");
  fclose(bounds);
}

/* How often this command has begun, with this time. */
static int tries(void) {
  char name[200];
  struct stat found;
  snprintf(name, sizeof name, "tries/%s.%s", group, key);
  int file = open(name, O_WRONLY | O_APPEND | O_CREAT | O_CLOEXEC, 0666);
  if (file < 0 || write(file, ".", 1) != 1 || fstat(file, &found)) _exit(96);
  close(file);
  return found.st_size;
}

static void on_term(int signal_number) {
  tell("T", "");
  if (has('i')) return;
  if (has('z')) {
    tell("E", " 0");
    _exit(0);
  }
  signal(signal_number, SIG_DFL);
  raise(signal_number);
}

static void sleep_for(long milliseconds) {
  struct timespec left = {milliseconds / 1000, milliseconds % 1000 * 1000000};
  while (nanosleep(&left, &left)) continue;
}

/* Leaves a process, and goes on once that has begun. */
static void leave(char flag) {
  char ready, name[200], rest[] = {' ', flag, 0};
  int pipes[2];
  if (pipe(pipes)) _exit(95);
  if (!fork()) {
    for (int at = 0; at < locks; at++) close(held[at]);
    if (flag == 'd') setsid();
    signal(SIGTERM, flag == 'h' ? SIG_IGN : SIG_DFL);
    snprintf(name, sizeof name, "locks/left.%s.%s", group, key);
    if (flag != 'd') lock(name);
    tell("G", rest);
    if (write(pipes[1], "", 1) != 1) _exit(94);
    close(pipes[0]), close(pipes[1]);
    sleep_for(LEFT_SECONDS * 1000);
    _exit(0);
  }
  if (read(pipes[0], &ready, 1) != 1) _exit(93);
  close(pipes[0]), close(pipes[1]);
}

static void tell_begin(int many, const char *folder) {
  char rest[400], output[400] = "";
  const char *number = getenv("NIGHT_TRY"), *word = getenv("WORD");
  if (readlink("/proc/self/fd/1", output, sizeof output - 1) < 0) _exit(90);
  /* (of one that was removed the system says so after its name) */
  output[strcspn(output, " ")] = 0;
  struct rlimit data;
  if (getrlimit(RLIMIT_DATA, &data)) _exit(90);
  snprintf(rest, sizeof rest, " %d %d %s %s %s %s %d %lu", (int)getpgrp(), many,
           number && *number ? number : "-", *folder ? folder : "/", word && *word ? word : "-",
           strrchr(output, '/') ? strrchr(output, '/') + 1 : "-", getpriority(PRIO_PROCESS, 0),
           data.rlim_cur == RLIM_INFINITY ? 0ul : (unsigned long)data.rlim_cur >> 10);
  tell("B", rest);
}

/* Has SIGTERM wait, or come. */
static void term(int how) {
  sigset_t one;
  sigemptyset(&one), sigaddset(&one, SIGTERM), sigprocmask(how, &one, NULL);
}

int main(int count, char **words) {
  if (count < 8) return 92;
  char folder[400] = "", rest[30];
  if (!getcwd(folder, sizeof folder) || chdir(words[1])) return 91;
  group = words[2], key = words[3], flags = words[7];
  if (has('c'))
    for (int at = 3; at < 256; at++) close(at);
  trace = open("trace", O_WRONLY | O_APPEND | O_CREAT | O_CLOEXEC, 0666);
  /* (what comes before its begin was written is answered after that) */
  term(SIG_BLOCK);
  signal(SIGTERM, on_term);
  look_beside();
  int many = tries();
  tell_begin(many, strrchr(folder, '/') + 1);
  term(SIG_UNBLOCK);
  for (const char *at = flags; *at; at++)
    if (*at == 'b' || *at == 'h' || *at == 'd') leave(*at);
  while (has('w') && !access("hold", F_OK)) sleep_for(20);
  if (atol(words[4])) sleep_for(atol(words[4]));
  int status = many <= atoi(words[6]) ? 3 : atoi(words[5]);
  term(SIG_BLOCK);
  printf("%s of %s ends with status %d\n", key, group, status);
  fflush(stdout);
  snprintf(rest, sizeof rest, " %d", status);
  tell("E", rest);
  return status;
}
