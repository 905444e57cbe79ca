/* Loads a server that speaks memcached's text protocol, and checks each value that it reads: a value has its key, its
 * length, a filling by both, and a checksum.
 *
 *   load -p PORT | -u SOCKET  [-T THREADS] [-C CONNECTIONS] [-k KEYS] [-v LEAST] [-V MOST] [-s SETS] [-d DELETES]
 *        [-g GROUP] [-x SECONDS] [-n SECONDS] [-N REQUESTS] [-e PART] [-o] [-z] [-a] [-f] [-l LOG]
 *
 * Of 1,000 requests -s are sets and -d deletes, and the rest are gets of -g keys each. Values have -v to -V bytes and
 * expire after -x seconds. -o asks for one key alone, -z by Zipf's law. -a stores a key that was missed. -f stores all
 * keys first. -l asks for the keys of a file, one after the other, by one connection. It ends after -n seconds, or once
 * each thread made -N requests. Each thread asks by all its -C connections, and then reads their answers. With -e it
 * reckons the checksum of one value of so many, since that takes longer than a server takes for a large one.
 *
 * It prints requests a second, hits, wrong values and times. Status 1: a value or an answer was wrong. */
#define _GNU_SOURCE
#include <arpa/inet.h>
#include <netinet/tcp.h>
#include <pthread.h>
#include <stdbool.h>
#include <stdint.h>
#include <stdio.h>
#include <stdlib.h>
#include <string.h>
#include <sys/socket.h>
#include <sys/un.h>
#include <time.h>
#include <unistd.h>

enum {
  THREADS_MOST = 64,
  GROUP_MOST = 128,
  SLOTS = 4096,
  FINE_SLOTS = 2048,
  COARSE = 100,
  ROOM = 1 << 22,
  SUM_DIGITS = 16
};

static struct {
  int port, threads, connections, keys, least, most, sets, deletes, group, expires;
  uint32_t examined;
  double seconds;
  long requests;
  bool one_key, by_zipf, aside, fills;
  const char *path, *log;
} chosen = {
  .port = 11211, .threads = 2, .connections = 16, .keys = 100000, .least = 100, .sets = 50, .group = 1, .seconds = 5,
  .examined = 1
};

static double *zipf_sums; /* the weights of all keys up to each */

struct tally {
  uint64_t requests, gets, hits, sets, not_stored, wrong, errors;
  uint64_t slot[SLOTS]; /* requests by microseconds, and behind FINE_SLOTS by hundreds of them */
};

struct link {
  int file;
  bool is_get;
  int keys, key[GROUP_MOST];
  double asked;
  char *buffer;
  size_t begin, end;
};

struct worker {
  pthread_t id;
  int number;
  uint64_t state;
  struct tally tally;
  char *text;
};
static struct worker workers[THREADS_MOST];

static double now(void) {
  struct timespec time;
  clock_gettime(CLOCK_MONOTONIC, &time);
  return (double)time.tv_sec + (double)time.tv_nsec / 1e9;
}

/* A number below another. */
static uint32_t chance(struct worker *worker, uint32_t below) {
  worker->state = worker->state * 6364136223846793005u + 1442695040888963407u;
  return (uint32_t)((worker->state >> 33) * below >> 31);
}

static void make_zipf(void) {
  zipf_sums = malloc((size_t)chosen.keys * sizeof *zipf_sums);
  if (zipf_sums == NULL) exit(2);
  double sum = 0;
  for (int key = 0; key < chosen.keys; key++) zipf_sums[key] = sum += 1.0 / (key + 1);
}

static int some_key(struct worker *worker) {
  if (chosen.one_key) return 1;
  double part = (double)chance(worker, 1u << 30) / (1u << 30);
  if (!chosen.by_zipf) return (int)(part * chosen.keys);
  double wanted = part * zipf_sums[chosen.keys - 1];
  int least = 0;
  for (int most = chosen.keys - 1; least < most;) {
    int middle = (least + most) / 2;
    if (zipf_sums[middle] > wanted) most = middle;
    else least = middle + 1;
  }
  return least;
}

/* ----------------------------------------------------------------------------------------------------- values */

static uint64_t checksum(const char *text, size_t bytes) {
  uint64_t sum = 0xcbf29ce484222325u;
  for (size_t i = 0; i < bytes; i++) sum = (sum ^ (unsigned char)text[i]) * 0x100000001b3u;
  return sum;
}

/* key:number:length:filling:checksum */
static size_t make_value(char *to, int key, uint32_t number, size_t bytes) {
  size_t at = (size_t)sprintf(to, "key%d:%u:%zu:", key, number, bytes);
  uint64_t filling = (uint64_t)key * 2654435761u + number;
  for (; at + SUM_DIGITS + 1 < bytes; at++) to[at] = (char)('a' + (filling = filling * 6364136223846793005u + 1) % 26);
  return at + (size_t)sprintf(to + at, ":%016llx", (unsigned long long)checksum(to, at));
}

static bool is_right(const char *value, size_t bytes, int key, bool is_examined) {
  char head[32], digits[SUM_DIGITS + 1] = "";
  size_t begins = (size_t)sprintf(head, "key%d:", key);
  unsigned long long sum;
  if (bytes < begins + SUM_DIGITS + 1 || memcmp(value, head, begins) != 0) return false;
  if (!is_examined) return true;
  memcpy(digits, value + bytes - SUM_DIGITS, SUM_DIGITS);
  return sscanf(digits, "%llx", &sum) == 1 && sum == checksum(value, bytes - SUM_DIGITS - 1);
}

/* ------------------------------------------------------------------------------------------------ connections */

static int join(void) {
  int file, on = 1;
  if (chosen.path != NULL) {
    struct sockaddr_un address = { .sun_family = AF_UNIX };
    strncpy(address.sun_path, chosen.path, sizeof address.sun_path - 1);
    file = socket(AF_UNIX, SOCK_STREAM, 0);
    return connect(file, (struct sockaddr *)&address, sizeof address) < 0 ? -1 : file;
  }
  struct sockaddr_in address = { .sin_family = AF_INET,
                                 .sin_port = htons((uint16_t)chosen.port),
                                 .sin_addr.s_addr = htonl(INADDR_LOOPBACK) };
  file = socket(AF_INET, SOCK_STREAM, 0);
  if (connect(file, (struct sockaddr *)&address, sizeof address) < 0) return -1;
  setsockopt(file, IPPROTO_TCP, TCP_NODELAY, &on, sizeof on);
  return file;
}

static bool send_all(struct link *link, const char *text, size_t bytes) {
  while (bytes > 0) {
    ssize_t sent = send(link->file, text, bytes, MSG_NOSIGNAL);
    if (sent <= 0) return false;
    text += sent;
    bytes -= (size_t)sent;
  }
  return true;
}

static bool receive(struct link *link) {
  if (link->begin > ROOM / 2) {
    memmove(link->buffer, link->buffer + link->begin, link->end - link->begin);
    link->end -= link->begin;
    link->begin = 0;
  }
  ssize_t received = recv(link->file, link->buffer + link->end, ROOM - link->end, 0);
  if (received <= 0) return false;
  link->end += (size_t)received;
  return true;
}

/* The bytes of the line that comes next, with its end; 0: the server closed. */
static size_t line(struct link *link) {
  for (;;) {
    char *begin = link->buffer + link->begin, *end = memchr(begin, '\n', link->end - link->begin);
    if (end != NULL) return (size_t)(end + 1 - begin);
    if (!receive(link)) return 0;
  }
}

static bool has_bytes(struct link *link, size_t bytes) {
  while (link->end - link->begin < bytes)
    if (!receive(link)) return false;
  return true;
}

/* --------------------------------------------------------------------------------------------------- requests */

static bool ask_set(struct worker *worker, struct link *link, int key) {
  enum { HEAD = 128 };
  char head[HEAD], *value = worker->text + HEAD;
  size_t bytes = (size_t)chosen.least;
  if (chosen.most > chosen.least) bytes += chance(worker, (uint32_t)(chosen.most - chosen.least + 1));
  bytes = make_value(value, key, chance(worker, 1u << 30), bytes);
  size_t begins = (size_t)sprintf(head, "set key%d 0 %d %zu\r\n", key, chosen.expires, bytes);
  memcpy(value - begins, head, begins);
  memcpy(value + bytes, "\r\n", 2);
  link->is_get = false;
  return send_all(link, value - begins, begins + bytes + 2);
}

static bool ask_get(struct worker *worker, struct link *link, int first, int keys) {
  char text[GROUP_MOST * 24];
  size_t bytes = (size_t)sprintf(text, "get");
  link->is_get = true;
  link->keys = keys;
  for (int i = 0; i < keys; i++) {
    link->key[i] = i == 0 ? first : some_key(worker);
    bytes += (size_t)sprintf(text + bytes, " key%d", link->key[i]);
  }
  bytes += (size_t)sprintf(text + bytes, "\r\n");
  return send_all(link, text, bytes);
}

static bool ask(struct worker *worker, struct link *link) {
  uint32_t what = chance(worker, 1000);
  int key = some_key(worker);
  link->asked = now();
  if (what < (uint32_t)chosen.sets) return ask_set(worker, link, key);
  if (what >= (uint32_t)(chosen.sets + chosen.deletes)) return ask_get(worker, link, key, chosen.group);
  char text[64];
  link->is_get = false;
  return send_all(link, text, (size_t)sprintf(text, "delete key%d\r\n", key));
}

static bool answer_other(struct tally *tally, struct link *link) {
  size_t bytes = line(link);
  if (bytes == 0) return false;
  const char *text = link->buffer + link->begin;
  link->begin += bytes;
  if (memcmp(text, "STORED", 6) == 0) tally->sets++;
  else if (memcmp(text, "SERVER_ERROR", 12) == 0) tally->not_stored++;
  else if (memcmp(text, "DELETED", 7) != 0 && memcmp(text, "NOT_FOUND", 9) != 0) tally->errors++;
  return true;
}

static bool answer_get(struct tally *tally, struct link *link) {
  int asked = 0;
  tally->gets += (uint64_t)link->keys;
  for (;;) {
    size_t head = line(link), bytes;
    int key;
    if (head == 0) return false;
    const char *text = link->buffer + link->begin;
    link->begin += head;
    if (memcmp(text, "END\r\n", 5) == 0) return true;
    if (sscanf(text, "VALUE key%d 0 %zu\r\n", &key, &bytes) != 2) return tally->errors++, false;
    if (!has_bytes(link, bytes + 2)) return false;
    while (asked < link->keys && link->key[asked] != key) asked++;
    bool is_examined = tally->hits % chosen.examined == 0;
    bool right = asked++ < link->keys && is_right(link->buffer + link->begin, bytes, key, is_examined);
    tally->hits++;
    tally->wrong += !right;
    link->begin += bytes + 2;
  }
}

static bool answer(struct worker *worker, struct link *link) {
  struct tally *tally = &worker->tally;
  uint64_t hits = tally->hits;
  if (!(link->is_get ? answer_get(tally, link) : answer_other(tally, link))) return false;
  if (link->begin == link->end) link->begin = link->end = 0;
  if (chosen.aside && link->is_get && link->keys == 1 && tally->hits == hits)
    if (!ask_set(worker, link, link->key[0]) || !answer_other(tally, link)) return false;
  double microseconds = (now() - link->asked) * 1e6;
  int slot = microseconds < FINE_SLOTS ? (int)microseconds : FINE_SLOTS + (int)(microseconds / COARSE);
  tally->slot[slot < SLOTS ? slot : SLOTS - 1]++;
  tally->requests++;
  return true;
}

/* --------------------------------------------------------------------------------------------------- the run */

static bool fill(struct worker *worker, struct link *link) {
  for (int key = worker->number; key < chosen.keys; key += chosen.threads)
    if (!ask_set(worker, link, key) || !answer_other(&worker->tally, link)) return false;
  worker->tally = (struct tally){ .not_stored = worker->tally.not_stored, .errors = worker->tally.errors };
  return true;
}

/* The keys of a file: what stands behind the letter that they begin with. */
static bool replay(struct worker *worker, struct link *link) {
  FILE *file = fopen(chosen.log, "r");
  char text[64];
  bool right = file != NULL;
  while (right && fgets(text, sizeof text, file) != NULL) {
    link->asked = now();
    right = ask_get(worker, link, atoi(text + 1), 1) && answer(worker, link);
  }
  if (file != NULL) fclose(file);
  return right;
}

static bool load(struct worker *worker, struct link *links) {
  double end = now() + chosen.seconds;
  while (now() < end && (chosen.requests == 0 || (long)worker->tally.requests < chosen.requests)) {
    for (int i = 0; i < chosen.connections; i++)
      if (!ask(worker, &links[i])) return false;
    for (int i = 0; i < chosen.connections; i++)
      if (!answer(worker, &links[i])) return false;
  }
  return true;
}

static void *run(void *given) {
  struct worker *worker = given;
  struct link *links = calloc((size_t)chosen.connections, sizeof *links);
  worker->text = malloc(ROOM);
  bool right = links != NULL && worker->text != NULL;
  for (int i = 0; right && i < chosen.connections; i++) {
    links[i].file = join();
    links[i].buffer = malloc(ROOM);
    right = links[i].file >= 0 && links[i].buffer != NULL;
  }
  if (right && chosen.fills) right = fill(worker, &links[0]);
  if (right) right = chosen.log != NULL ? replay(worker, &links[0]) : load(worker, links);
  worker->tally.errors += !right;
  return NULL;
}

static uint64_t microseconds_of(const struct tally *tally, double part) {
  uint64_t seen = 0;
  for (int slot = 0; slot < SLOTS; slot++) {
    seen += tally->slot[slot];
    if ((double)seen >= (double)tally->requests * part)
      return slot < FINE_SLOTS ? (uint64_t)slot : (uint64_t)(slot - FINE_SLOTS) * COARSE;
  }
  return 0;
}

static void add(struct tally *to, const struct tally *from) {
  to->requests += from->requests, to->gets += from->gets, to->hits += from->hits, to->sets += from->sets;
  to->not_stored += from->not_stored, to->wrong += from->wrong, to->errors += from->errors;
  for (int slot = 0; slot < SLOTS; slot++) to->slot[slot] += from->slot[slot];
}

static void choose(int option) {
  switch (option) {
    case 'p': chosen.port = atoi(optarg); break;
    case 'u': chosen.path = optarg; break;
    case 'T': chosen.threads = atoi(optarg) > THREADS_MOST ? THREADS_MOST : atoi(optarg); break;
    case 'C': chosen.connections = atoi(optarg); break;
    case 'k': chosen.keys = atoi(optarg); break;
    case 'v': chosen.least = atoi(optarg); break;
    case 'V': chosen.most = atoi(optarg); break;
    case 's': chosen.sets = atoi(optarg); break;
    case 'd': chosen.deletes = atoi(optarg); break;
    case 'g': chosen.group = atoi(optarg) > GROUP_MOST ? GROUP_MOST : atoi(optarg); break;
    case 'x': chosen.expires = atoi(optarg); break;
    case 'n': chosen.seconds = atof(optarg); break;
    case 'e': chosen.examined = atoi(optarg) > 0 ? (uint32_t)atoi(optarg) : 1; break;
    case 'N': chosen.requests = atol(optarg); break;
    case 'l': chosen.log = optarg, chosen.aside = true; break;
    case 'o': chosen.one_key = true; break;
    case 'z': chosen.by_zipf = true; break;
    case 'a': chosen.aside = true; break;
    case 'f': chosen.fills = true; break;
    default: exit(2);
  }
}

int main(int count, char **words) {
  for (int option; (option = getopt(count, words, "p:u:T:C:k:v:V:s:d:g:x:n:N:e:l:ozaf")) != -1;) choose(option);
  if (chosen.by_zipf) make_zipf();
  static struct tally sum;
  double begins = now();
  for (int i = 0; i < chosen.threads; i++) {
    workers[i].number = i;
    workers[i].state = 77 + (uint64_t)i * 1000003;
    pthread_create(&workers[i].id, NULL, run, &workers[i]);
  }
  for (int i = 0; i < chosen.threads; i++) {
    pthread_join(workers[i].id, NULL);
    add(&sum, &workers[i].tally);
  }
  double took = now() - begins;
  printf(
      "requests/s %.0f  gets %llu  hits %llu  rate %.2f  sets %llu  refused %llu  wrong %llu  errors %llu  "
      "p50 %llu  p99 %llu  p99.9 %llu  seconds %.3f\n",
      (double)sum.requests / took, (unsigned long long)sum.gets, (unsigned long long)sum.hits,
      sum.gets != 0 ? 100.0 * (double)sum.hits / (double)sum.gets : 0, (unsigned long long)sum.sets,
      (unsigned long long)sum.not_stored, (unsigned long long)sum.wrong, (unsigned long long)sum.errors,
      (unsigned long long)microseconds_of(&sum, 0.5), (unsigned long long)microseconds_of(&sum, 0.99),
      (unsigned long long)microseconds_of(&sum, 0.999), took);
  return sum.wrong != 0 || sum.errors != 0;
}
