#define _GNU_SOURCE
#include "process.h"
#include <fcntl.h>
#include <grp.h>
#include <pwd.h>
#include <stdbool.h>
#include <stdio.h>
#include <stdlib.h>
#include <string.h>
#include <sys/mman.h>
#include <sys/prctl.h>
#include <sys/resource.h>
#include <sys/wait.h>
#include <unistd.h>
#include "settings.h"

/* Files beside connections: listeners, epolls, what the C library opens. */
enum { FILES_BESIDE = 256 };

/* Whom to become; root: nobody else. */
static uid_t user_number;
static gid_t group_number;

void process_fail(const char *what) {
  fprintf(stderr, "bump-server: %s\n", what);
  exit(EXIT_NO_START);
}

/* Written to once a daemon serves; -1: it is none. */
static int ready = -1;

static bool is_root(void) { return getuid() == 0 || geteuid() == 0; }

void process_find_user(void) {
  if (!is_root()) return;
  if (settings.user == NULL) {
    fprintf(stderr, "bump-server: can't run as root without the -u switch\n");
    exit(EXIT_WRONG_OPTION);
  }
  const struct passwd *user = getpwnam(settings.user);
  if (user == NULL) process_fail("there is no such user as -u says");
  user_number = user->pw_uid;
  group_number = user->pw_gid;
}

void process_become_user(void) {
  if (!is_root() || user_number == 0) return;
  if (setgroups(0, NULL) != 0 || setgid(group_number) != 0 || setuid(user_number) != 0)
    process_fail("can't become the user of -u");
  if (settings.dumps_core) prctl(PR_SET_DUMPABLE, 1); /* who changed its user dumps none */
}

/* The first process waits until the second one serves, or ended; and ends as that did. */
static _Noreturn void wait_for_daemon(pid_t child, int from) {
  char word;
  int status;
  if (read(from, &word, 1) == 1) _exit(EXIT_SETTLED);
  if (waitpid(child, &status, 0) != child || !WIFEXITED(status)) _exit(EXIT_NO_START);
  _exit(WEXITSTATUS(status));
}

/* As in memcached a daemon stands in the root of all files, unless it is to leave a core where it was started. */
void process_become_daemon(void) {
  int ends[2];
  if (!settings.is_daemon) return;
  if (pipe2(ends, O_CLOEXEC) != 0) process_fail("can't become a daemon: -d");
  pid_t child = fork();
  if (child < 0) process_fail("can't become a daemon: -d");
  if (child > 0) {
    close(ends[1]);
    wait_for_daemon(child, ends[0]);
  }
  close(ends[0]);
  ready = ends[1];
  setsid();
  if (!settings.dumps_core && chdir("/") != 0) process_fail("can't go to /: -d");
}

void process_detach(void) {
  if (ready < 0) return;
  int nothing = settings.verbosity > 0 ? -1 : open("/dev/null", O_RDWR | O_CLOEXEC);
  for (int file = STDIN_FILENO; nothing >= 0 && file <= STDERR_FILENO; file++) dup2(nothing, file);
  if (nothing > STDERR_FILENO) close(nothing);
  if (write(ready, "", 1) != 1) {
    /* the first process is gone, and nobody waits */
  }
  close(ready);
}

/* As many connections as there may be files. At a low limit the files beside them get no more than half. */
static void take_fewer(rlim_t files) {
  rlim_t beside = files < 2 * FILES_BESIDE ? files / 2 : FILES_BESIDE;
  settings.connections = (int)(files - beside);
  fprintf(stderr, "bump-server: no more than %llu files may be open: it takes %d connections\n",
          (unsigned long long)files, settings.connections);
}

void process_raise_files(void) {
  struct rlimit limit, wider;
  rlim_t wanted = (rlim_t)settings.connections + FILES_BESIDE;
  if (getrlimit(RLIMIT_NOFILE, &limit) != 0 || limit.rlim_cur >= wanted) return;
  wider = (struct rlimit){ wanted, limit.rlim_max < wanted ? wanted : limit.rlim_max };
  if (setrlimit(RLIMIT_NOFILE, &wider) == 0) return;
  limit.rlim_cur = limit.rlim_max; /* which anybody may do */
  if (setrlimit(RLIMIT_NOFILE, &limit) != 0) process_fail("not so many files may be open: choose a smaller -c");
  take_fewer(limit.rlim_max);
}

void process_allow_cores(void) {
  struct rlimit limit = { RLIM_INFINITY, RLIM_INFINITY };
  if (!settings.dumps_core || setrlimit(RLIMIT_CORE, &limit) == 0) return;
  if (getrlimit(RLIMIT_CORE, &limit) != 0 || limit.rlim_max == 0) process_fail("can't leave a core: -r");
  limit.rlim_cur = limit.rlim_max;
  if (setrlimit(RLIMIT_CORE, &limit) != 0) process_fail("can't leave a core: -r");
}

/* Who isn't root, or isn't for long, may lock as much as a limit says. */
static void raise_locked(void) {
  struct rlimit limit = { RLIM_INFINITY, RLIM_INFINITY };
  if ((is_root() && user_number == 0) || setrlimit(RLIMIT_MEMLOCK, &limit) == 0) return;
  if (getrlimit(RLIMIT_MEMLOCK, &limit) == 0 && limit.rlim_cur < settings.memory)
    fprintf(stderr, "bump-server: no more than %llu bytes may be locked: -k needs more than -m\n",
            (unsigned long long)limit.rlim_cur);
}

void process_lock_memory(void) {
  if (!settings.locks_memory) return;
  raise_locked();
  if (mlockall(MCL_CURRENT | MCL_FUTURE) != 0) process_fail("can't lock memory: -k");
}

/* Memory is the C library's, and comes in small pieces: the kernel makes large pages of them, or doesn't. */
void process_look_at_pages(void) {
  static const char SAYS[] = "/sys/kernel/mm/transparent_hugepage/enabled";
  char is[64] = "";
  if (!settings.wants_large_pages) return;
  FILE *file = fopen(SAYS, "r");
  if (file != NULL && fgets(is, sizeof is, file) == NULL) *is = 0;
  if (file != NULL) fclose(file);
  if (strstr(is, "[always]") == NULL) fprintf(stderr, "bump-server: -L has no effect: %s isn't always\n", SAYS);
}

void process_write_number(void) {
  if (settings.process_file == NULL) return;
  FILE *file = fopen(settings.process_file, "w");
  if (file == NULL || fprintf(file, "%ld\n", (long)getpid()) < 0 || fclose(file) != 0)
    process_fail("can't write the file of -P");
}

void process_forget_number(void) {
  if (settings.process_file != NULL) unlink(settings.process_file);
}
