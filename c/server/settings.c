#define _GNU_SOURCE
#include "settings.h"
#include "bump.h"
#include <getopt.h>
#include <stdio.h>
#include <stdlib.h>
#include <string.h>
#include "words.h"

struct settings settings = { .port = 11211,
                             .address = "127.0.0.1",
                             .socket_mode = 0700,
                             .threads = 4,
                             .connections = 1024,
                             .backlog = 1024,
                             .requests_at_once = 20,
                             .item_most = 1 << 20,
                             .chunk_least = 48,
                             .growth_factor = 1.25,
                             .evicts = true,
                             .has_unique = true,
                             .may_flush = true,
                             .may_watch = true,
                             .may_dump = true,
                             .prefix_delimiter = ':',
                             .begins_crawling = true,
                             .maintains = true,
                             .uses_io_uring = true,
                             .memory = 64 << 20,
                             .hot_percent = 20,
                             .warm_percent = 40,
                             .hot_factor = 0.2,
                             .warm_factor = 2.0,
                             .balance = 0.8,
                             .temporary_ttl = -1 };

/* Those that have no letter. */
enum { OPTION_WALK = 256 };

static const struct option LONG[] = { { "port", required_argument, NULL, 'p' },
                                      { "udp-port", required_argument, NULL, 'U' },
                                      { "listen", required_argument, NULL, 'l' },
                                      { "unix-socket", required_argument, NULL, 's' },
                                      { "unix-mask", required_argument, NULL, 'a' },
                                      { "memory-limit", required_argument, NULL, 'm' },
                                      { "threads", required_argument, NULL, 't' },
                                      { "conn-limit", required_argument, NULL, 'c' },
                                      { "listen-backlog", required_argument, NULL, 'b' },
                                      { "max-reqs-per-event", required_argument, NULL, 'R' },
                                      { "max-item-size", required_argument, NULL, 'I' },
                                      { "slab-growth-factor", required_argument, NULL, 'f' },
                                      { "slab-min-size", required_argument, NULL, 'n' },
                                      { "disable-evictions", no_argument, NULL, 'M' },
                                      { "disable-cas", no_argument, NULL, 'C' },
                                      { "disable-flush-all", no_argument, NULL, 'F' },
                                      { "enable-shutdown", no_argument, NULL, 'A' },
                                      { "protocol", required_argument, NULL, 'B' },
                                      { "disable-dumping", no_argument, NULL, 'X' },
                                      { "disable-watch", no_argument, NULL, 'W' },
                                      { "prefix-delimiter", required_argument, NULL, 'D' },
                                      { "enable-sasl", no_argument, NULL, 'S' },
                                      { "auth-file", required_argument, NULL, 'Y' },
                                      { "enable-ssl", no_argument, NULL, 'Z' },
                                      { "user", required_argument, NULL, 'u' },
                                      { "pidfile", required_argument, NULL, 'P' },
                                      { "lock-memory", no_argument, NULL, 'k' },
                                      { "daemon", no_argument, NULL, 'd' },
                                      { "enable-coredumps", no_argument, NULL, 'r' },
                                      { "enable-largepages", no_argument, NULL, 'L' },
                                      { "verbose", no_argument, NULL, 'v' },
                                      { "extended", required_argument, NULL, 'o' },
                                      { "walk", no_argument, NULL, OPTION_WALK },
                                      { "help", no_argument, NULL, 'h' },
                                      { "version", no_argument, NULL, 'V' },
                                      { NULL, 0, NULL, 0 } };

static const char HELP[] =
    "bump-server: memcached's text, meta and binary protocols over bump\n"
    "\n"
    "-p, --port=<number>          port to listen on (11211)\n"
    "-l, --listen=<address>       addresses or names to listen on, with :<port> behind or without, and with commas\n"
    "                             between; * is all addresses; -l can be there more than once (127.0.0.1)\n"
    "-s, --unix-socket=<file>     socket to listen on, in place of a port\n"
    "-a, --unix-mask=<mode>       its permissions, in octal (0700)\n"
    "-m, --memory-limit=<number>  megabytes of items (64)\n"
    "-t, --threads=<number>       threads that serve, 1 to 64 (4)\n"
    "-c, --conn-limit=<number>    connections at once (1024)\n"
    "-b, --listen-backlog=<number>  connections that wait to be accepted (1024)\n"
    "-R, --max-reqs-per-event=<number>  requests of one connection before others come (20)\n"
    "-I, --max-item-size=<size>   bytes of an item, with k or m behind: 1k to 1024m (1m)\n"
    "-f, --slab-growth-factor=<number>  between the sizes of two classes (1.25)\n"
    "-n, --slab-min-size=<bytes>  key, value and flags of the smallest class (48)\n"
    "-M, --disable-evictions      where memory is used up, say so and store nothing\n"
    "-C, --disable-cas            items have no number for cas\n"
    "-F, --disable-flush-all      refuse flush_all\n"
    "-A, --enable-shutdown        allow the command shutdown\n"
    "-X, --disable-dumping        refuse stats cachedump and lru_crawler metadump\n"
    "-W, --disable-watch          refuse watch\n"
    "-D, --prefix-delimiter=<letter>  count gets and sets by what stands before it in keys, for stats detail (:)\n"
    "-B, --protocol=<name>        ascii, binary, or auto: that of a connection's first byte (auto)\n"
    "-u, --user=<name>            whom to become, where root starts it, who has to say so\n"
    "-P, --pidfile=<file>         write the number of the process there\n"
    "-k, --lock-memory            keep all memory out of swap\n"
    "-d, --daemon                 run apart from the terminal, in /; the command ends once it serves\n"
    "-r, --enable-coredumps       it may leave a core, as large as the limits allow\n"
    "-L, --enable-largepages      large pages: the kernel gives them, or it says that it doesn't\n"
    "-v, --verbose                say more on standard error; -vv: each command\n"
    "    --walk                   free each item at the end, for tools that look for lost memory\n"
    "-h, --help                   this text\n"
    "-V, --version                the version\n"
    "-o, --extended=<name>,<name>=<value>..\n"
    "    hot_lru_pct=<number>       percent of a class that HOT may have (20)\n"
    "    warm_lru_pct=<number>      percent of a class that WARM may have (40)\n"
    "    hot_max_factor=<number>    of COLD's age, after which an item leaves HOT (0.2)\n"
    "    warm_max_factor=<number>   the same of WARM (2.0)\n"
    "    temporary_ttl=<seconds>    items that expire within them go to TEMP (none)\n"
    "    idle_timeout=<seconds>     close connections that say nothing for so long (never)\n"
    "    slab_automove_ratio=<number>  a class younger than that part of another's age takes its memory (0.8)\n"
    "    slab_chunk_max=<bytes>     of the largest class (524288)\n"
    "    lru_crawler, no_lru_crawler        look for expired items, or don't\n"
    "    lru_maintainer, no_lru_maintainer  age lists in a thread of their own, or don't\n"
    "    modern, no_modern          both, or none\n"
    "    no_io_uring                make each of the system's calls by itself\n"
    "    track_sizes                count items by their sizes from the start on, for stats sizes\n"
    "\n"
    "Not here: UDP (-U has no effect), authentication (-S, -Y), encryption (-Z), storage on disk.\n";

static _Noreturn void wrong(const char *what, const char *text) {
  fprintf(stderr, "bump-server: %s: %s. --help tells the options.\n", what, text);
  exit(EXIT_WRONG_OPTION);
}

/* A whole number between two others, or the program ends. */
static int whole(const char *name, const char *text, long least, long most) {
  char *end;
  long number = strtol(text, &end, 10);
  if (*text == 0 || *end != 0 || number < least || number > most) wrong(name, "not a number that it can be");
  return (int)number;
}

static double real(const char *name, const char *text, double above, double most) {
  double number;
  if (!number_real(text, &number) || !(number > above) || number > most) wrong(name, "not a number that it can be");
  return number;
}

static uint32_t size(const char *name, const char *text) {
  char *end;
  double number = strtod(text, &end);
  if (*end == 'k' || *end == 'K') number *= 1024, end++;
  else if (*end == 'm' || *end == 'M') number *= 1024 * 1024, end++;
  if (end == text || *end != 0) wrong(name, "not a size");
  if (!(number >= 1024) || number > 1024.0 * 1024 * 1024) wrong(name, "must be 1k to 1024m");
  return (uint32_t)number;
}

/* Permissions, in octal. */
static unsigned mode(const char *name, const char *text) {
  char *end;
  unsigned long number = strtoul(text, &end, 8);
  if (*text == 0 || *end != 0 || number > 0777) wrong(name, "not permissions in octal");
  return (unsigned)number;
}

static enum protocol protocol(const char *name, const char *text) {
  if (strcmp(text, "auto") == 0) return PROTOCOL_AUTO;
  if (strcmp(text, "ascii") == 0) return PROTOCOL_TEXT;
  if (strcmp(text, "binary") != 0) wrong(name, "not ascii, binary or auto");
  return PROTOCOL_BINARY;
}

/* Words of memcached's -o that say what is so here anyway, or that there is nothing to say of here. */
static bool is_without_effect(const char *name) {
  static const char *const NAMES[] = {
    "maxconns_fast",      "no_maxconns_fast",     "no_hashexpand",      "hash_algorithm",     "hashpower",
    "slab_reassign",      "no_slab_reassign",     "slab_automove",      "no_slab_automove",   "slab_automove_window",
    "lru_crawler_sleep",  "lru_crawler_tocrawl",  "tail_repair_time",   "relaxed_privileges", "drop_privileges",
    "no_drop_privileges", "watcher_logbuf_size",  "worker_logbuf_size", "resp_obj_mem_limit", "read_buf_mem_limit",
    "no_inline_ascii_resp", "inline_ascii_resp"
  };
  for (size_t i = 0; i < sizeof NAMES / sizeof *NAMES; i++)
    if (strcmp(name, NAMES[i]) == 0) return true;
  return false;
}

/* One of the words of -o that have a value. */
static bool read_valued(const char *name, const char *value) {
  if (strcmp(name, "hot_lru_pct") == 0) settings.hot_percent = whole(name, value, 1, 80);
  else if (strcmp(name, "warm_lru_pct") == 0) settings.warm_percent = whole(name, value, 1, 80);
  else if (strcmp(name, "hot_max_factor") == 0) settings.hot_factor = real(name, value, 0, 1e9);
  else if (strcmp(name, "warm_max_factor") == 0) settings.warm_factor = real(name, value, 0, 1e9);
  else if (strcmp(name, "slab_automove_ratio") == 0) settings.balance = real(name, value, 0, 1);
  else if (strcmp(name, "temporary_ttl") == 0) settings.temporary_ttl = whole(name, value, 0, 1 << 30);
  else if (strcmp(name, "idle_timeout") == 0) settings.idle_most = whole(name, value, 0, 1 << 30);
  else if (strcmp(name, "slab_chunk_max") == 0) settings.chunk_most = (uint32_t)whole(name, value, 512, 1 << 30);
  else return false;
  return true;
}

static void read_extended(char *text) {
  char *rest = NULL;
  for (char *name = strtok_r(text, ",", &rest); name != NULL; name = strtok_r(NULL, ",", &rest)) {
    char *value = strchr(name, '=');
    if (value != NULL) *value++ = 0;
    if (strcmp(name, "modern") == 0) settings.begins_crawling = settings.maintains = true;
    else if (strcmp(name, "no_modern") == 0) settings.begins_crawling = settings.maintains = false;
    else if (strcmp(name, "lru_crawler") == 0) settings.begins_crawling = true;
    else if (strcmp(name, "no_lru_crawler") == 0) settings.begins_crawling = false;
    else if (strcmp(name, "track_sizes") == 0) settings.counts_sizes = true;
    else if (strcmp(name, "lru_maintainer") == 0) settings.maintains = true;
    else if (strcmp(name, "no_lru_maintainer") == 0) settings.maintains = false;
    else if (strcmp(name, "no_io_uring") == 0) settings.uses_io_uring = false;
    else if (value != NULL && read_valued(name, value)) continue;
    else if (strncmp(name, "ssl_", 4) == 0) wrong(name, "there is no TLS here: let a proxy speak it");
    else if (!is_without_effect(name)) wrong("-o", name);
  }
}

/* The addresses of each -l, with commas between. */
static void add_addresses(const char *text) {
  static char all[4096];
  size_t used = strlen(all);
  int added = snprintf(all + used, sizeof all - used, "%s%s", used > 0 ? "," : "", text);
  if (added < 0 || (size_t)added >= sizeof all - used) wrong("-l", "too many addresses");
  settings.address = all;
}

/* Options that say where the server is and who it is. */
static bool read_place(int option) {
  switch (option) {
    case 'p': settings.port = whole("-p", optarg, 0, 65535); return true;
    case 'l': add_addresses(optarg); return true;
    case 's': settings.socket_path = optarg; return true;
    case 'a': settings.socket_mode = mode("-a", optarg); return true;
    case 'u': settings.user = optarg; return true;
    case 'P': settings.process_file = optarg; return true;
    case 'k': settings.locks_memory = true; return true;
    case 'd': settings.is_daemon = true; return true;
    case 'r': settings.dumps_core = true; return true;
    case 'L': settings.wants_large_pages = true; return true;
    case 'v': settings.verbosity++; return true;
    case 'U':
      if (whole("-U", optarg, 0, 65535) != 0 && settings.verbosity > 0)
        fprintf(stderr, "bump-server: there is no UDP here\n");
      return true;
    case 'B': settings.protocol = protocol("-B", optarg); return true;
    case 'S': wrong("-S", "there is no SASL here: whoever can connect may do all");
    case 'Y': wrong("-Y", "there is no authentication here: whoever can connect may do all");
    case 'Z': wrong("-Z", "there is no TLS here: let a proxy speak it");
    case 'V': printf("bump-server over bump %u, as memcached %s\n", bump_version(), SERVER_VERSION); exit(EXIT_SETTLED);
    case 'h': fputs(HELP, stdout); exit(EXIT_SETTLED);
    default: return false;
  }
}

/* The letter that ends a key's prefix. Who names one wants prefixes to be counted. */
static void read_delimiter(const char *text) {
  if (*text == 0) wrong("-D", "no delimiter");
  settings.prefix_delimiter = *text;
  settings.counts_prefixes = true;
}

/* Options that say how much there may be. */
static void read_measure(int option) {
  switch (option) {
    case 'm': settings.memory = (uint64_t)whole("-m", optarg, 1, 1 << 24) << 20; return;
    case 't': settings.threads = whole("-t", optarg, 1, THREADS_MOST); return;
    case 'c': settings.connections = whole("-c", optarg, 1, 1 << 24); return;
    case 'b': settings.backlog = whole("-b", optarg, 1, 1 << 24); return;
    case 'R': settings.requests_at_once = whole("-R", optarg, 1, 1 << 24); return;
    case 'I': settings.item_most = size("-I", optarg); return;
    case 'f': settings.growth_factor = real("-f", optarg, 1.0, 1e6); return;
    case 'n': settings.chunk_least = (uint32_t)whole("-n", optarg, 1, 1 << 20); return;
    case 'M': settings.evicts = false; return;
    case 'C': settings.has_unique = false; return;
    case 'F': settings.may_flush = false; return;
    case 'A': settings.may_shut_down = true; return;
    case 'W': settings.may_watch = false; return;
    case 'X': settings.may_dump = false; return;
    case 'D': read_delimiter(optarg); return;
    case 'o': read_extended(optarg); return;
    case OPTION_WALK: settings.walks = true; return;
    default: wrong("the command line", "no such option");
  }
}

/* What memcached's own tests want of a build for tests: as many bytes in use before the start, and a command by which
 * time passes faster. Here the environment asks for them, and for a system with few mappings. */
static void read_environment(void) {
  const char *before = getenv("T_MEMD_INITIAL_MALLOC"), *mappings = getenv("BUMP_SERVER_MAPPINGS");
  if (before != NULL) settings.bytes_before = strtoull(before, NULL, 10);
  if (mappings != NULL) settings.mappings = strtoull(mappings, NULL, 10);
  settings.may_move_time = getenv("BUMP_SERVER_DEBUGTIME") != NULL;
}

void settings_read(int count, char **words) {
  int option;
  opterr = 0;
  const char *const letters = "p:l:s:a:u:P:kdrLvU:B:SY:ZVhm:t:c:b:R:I:f:n:MCFAWXD:o:";
  while ((option = getopt_long(count, words, letters, LONG, NULL)) != -1)
    if (!read_place(option)) read_measure(option);
  if (optind < count) wrong(words[optind], "not an option");
  if (settings.hot_percent + settings.warm_percent > 80)
    wrong("-o", "hot_lru_pct and warm_lru_pct together are above 80");
  if (settings.item_most > settings.memory / 2) wrong("-I", "more than half of -m");
  if (settings.chunk_most == 0) settings.chunk_most = settings.item_most < 1 << 20 ? settings.item_most : 1 << 19;
  if (settings.chunk_most > settings.item_most) settings.chunk_most = settings.item_most;
  settings.crawls = settings.begins_crawling;
  read_environment();
}
