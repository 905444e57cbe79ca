#define _GNU_SOURCE
#include "network.h"
#include <arpa/inet.h>
#include <errno.h>
#include <netdb.h>
#include <netinet/tcp.h>
#include <poll.h>
#include <stdio.h>
#include <stdlib.h>
#include <string.h>
#include <sys/epoll.h>
#include <sys/eventfd.h>
#include <sys/socket.h>
#include <sys/stat.h>
#include <sys/un.h>
#include <time.h>
#include <unistd.h>
#include "calls.h"
#include "clock.h"
#include "connection.h"
#include "drive.h"
#include "memory.h"
#include "values.h"
#include "watchers.h"
#include "words.h"

enum {
  LISTENERS_MOST = 16,
  EVENTS_MOST = 64,
  ACCEPTS_AT_ONCE = 16,
  FAREWELL_MILLISECONDS = 1000,
  FILES_BESIDE = 1024, /* connections have numbers below theirs and that, or aren't told of */
  TOLD_WITH_LOCK = 16,
  IDLE_AT_ONCE = 16,
  PARKED_MILLISECONDS = 2 /* from one look at those that are parked to the next */
};

_Static_assert((int)SPARE_BLOCKS_MOST > (int)CALLS_MOST, "a block for what each of them sent, and one for an answer");

struct thread threads[THREADS_MOST + 2];
_Atomic bool is_ending;

static int listeners[LISTENERS_MOST];
static int listeners_count;

static _Atomic uint64_t current, ever, rejected, without_file;

/* The connections by the numbers of their files. */
static pthread_mutex_t seating = PTHREAD_MUTEX_INITIALIZER;
static struct connection **seat;
static int seats;

struct network_measure network_measure(void) {
  return (struct network_measure){ atomic_load(&current), atomic_load(&ever), atomic_load(&rejected),
                                   atomic_load(&without_file) };
}

/* ------------------------------------------------------------------------------------------------- listening */

static bool add_listener(int file, const char *what) {
  if (listeners_count == LISTENERS_MOST || listen(file, settings.backlog) < 0) {
    fprintf(stderr, "bump-server: %s: %s\n", what,
            listeners_count == LISTENERS_MOST ? "too many addresses" : strerror(errno));
    close(file);
    return false;
  }
  listeners[listeners_count++] = file;
  return true;
}

/* A socket's file that a server left behind is taken over; any other file isn't. */
static bool listen_on_path(const char *path) {
  struct sockaddr_un address = { .sun_family = AF_UNIX };
  struct stat there;
  if (strlen(path) >= sizeof address.sun_path)
    return fprintf(stderr, "bump-server: %s: too long a path\n", path), false;
  memcpy(address.sun_path, path, strlen(path) + 1);
  if (lstat(path, &there) == 0 && S_ISSOCK(there.st_mode)) unlink(path);
  int file = socket(AF_UNIX, SOCK_STREAM | SOCK_NONBLOCK | SOCK_CLOEXEC, 0);
  mode_t before = umask(~settings.socket_mode & 0777);
  bool bound = file >= 0 && bind(file, (struct sockaddr *)&address, sizeof address) == 0;
  umask(before);
  if (bound) return add_listener(file, path);
  perror(path);
  if (file >= 0) close(file);
  return false;
}

static bool listen_on_address(const struct addrinfo *info, const char *what) {
  int on = 1, file = socket(info->ai_family, info->ai_socktype | SOCK_NONBLOCK | SOCK_CLOEXEC, info->ai_protocol);
  if (file < 0) return perror(what), errno == EAFNOSUPPORT; /* a host may have addresses that this machine hasn't */
  bool all = setsockopt(file, SOL_SOCKET, SO_REUSEADDR, &on, sizeof on) == 0;
  all &= setsockopt(file, SOL_SOCKET, SO_KEEPALIVE, &on, sizeof on) == 0; /* accepted ones have it: who vanished goes */
  all &= info->ai_family != AF_INET6 || setsockopt(file, IPPROTO_IPV6, IPV6_V6ONLY, &on, sizeof on) == 0;
  if (all && bind(file, info->ai_addr, info->ai_addrlen) == 0) return add_listener(file, what);
  perror(what);
  close(file);
  return false;
}

struct place {
  const char *host; /* NULL: all addresses */
  const char *port; /* NULL: that of the settings */
};

/* Cuts HOST or HOST:PORT. IPv6's addresses have brackets where a port is behind; without them two colons are theirs. */
static bool cut_place(char *name, struct place *place) {
  char *behind = name;
  *place = (struct place){ .host = name };
  if (*name == '[') {
    place->host = name + 1;
    behind = strchr(name, ']');
    if (behind == NULL || (behind[1] != 0 && behind[1] != ':')) return false;
    *behind++ = 0;
  }
  char *colon = strchr(behind, ':');
  if (colon != NULL && (behind != name || strchr(colon + 1, ':') == NULL)) {
    *colon = 0;
    place->port = colon + 1;
  }
  if (strcmp(place->host, "*") == 0) place->host = NULL;
  return true;
}

/* All addresses that a host has, by that port. */
static bool listen_on_place(struct place place, const char *what) {
  const struct addrinfo wanted = { .ai_flags = AI_PASSIVE | AI_NUMERICSERV, .ai_socktype = SOCK_STREAM };
  struct addrinfo *found = NULL;
  int fault = getaddrinfo(place.host, place.port, &wanted, &found);
  if (fault != 0) return fprintf(stderr, "bump-server: %s: %s\n", what, gai_strerror(fault)), false;
  bool all = true;
  for (const struct addrinfo *info = found; info != NULL; info = info->ai_next) all &= listen_on_address(info, what);
  freeaddrinfo(found);
  return all;
}

/* One of those that -l names. */
static bool listen_on_name(char *name) {
  char port[8];
  struct place place;
  uint64_t number;
  if (!cut_place(name, &place)) return fprintf(stderr, "bump-server: %s: no address\n", name), false;
  const char *what = place.host != NULL ? place.host : "*";
  snprintf(port, sizeof port, "%d", settings.port);
  if (place.port == NULL) place.port = port;
  else if (!number_u64(place.port, &number) || number > UINT16_MAX)
    return fprintf(stderr, "bump-server: %s: %s: no port\n", what, place.port), false;
  return listen_on_place(place, what);
}

bool network_listen(void) {
  if (settings.socket_path != NULL) return listen_on_path(settings.socket_path);
  char *names = strdup(settings.address), *rest = NULL;
  bool all = names != NULL;
  for (char *name = all ? strtok_r(names, ",", &rest) : NULL; name != NULL; name = strtok_r(NULL, ",", &rest))
    all &= listen_on_name(name);
  free(names);
  return all && listeners_count > 0;
}

void network_unlisten(void) {
  for (int i = 0; i < listeners_count; i++) close(listeners[i]);
  if (settings.socket_path != NULL) unlink(settings.socket_path);
}

/* ------------------------------------------------------------------------------------------------- accepting */

void network_free(void) { free(seat); }

bool network_make(void) {
  seats = settings.connections + FILES_BESIDE;
  seat = calloc((size_t)seats, sizeof *seat);
  return seat != NULL;
}

/* Who takes a seat is told of by `stats conns`, as long as its file is open. */
static void sit(int file, struct connection *connection) {
  if (file >= seats) return;
  pthread_mutex_lock(&seating);
  seat[file] = connection;
  pthread_mutex_unlock(&seating);
}

/* An address of a socket: what it is called where it has a name, and its port. */
struct address {
  bool is_known;
  int family;
  char host[sizeof((struct sockaddr_un *)0)->sun_path + 1];
  unsigned port;
};

static struct address address_of(int file, int (*ask)(int, struct sockaddr *, socklen_t *)) {
  struct sockaddr_storage found = { 0 };
  struct address address = { 0 };
  socklen_t bytes = sizeof found;
  const struct sockaddr_in *four = (const struct sockaddr_in *)&found;
  const struct sockaddr_in6 *six = (const struct sockaddr_in6 *)&found;
  address.is_known = ask(file, (struct sockaddr *)&found, &bytes) == 0;
  address.family = found.ss_family;
  if (address.family == AF_INET) {
    inet_ntop(AF_INET, &four->sin_addr, address.host, sizeof address.host);
    address.port = ntohs(four->sin_port);
  } else if (address.family == AF_INET6) {
    inet_ntop(AF_INET6, &six->sin6_addr, address.host, sizeof address.host);
    address.port = ntohs(six->sin6_port);
  } else if (address.family == AF_UNIX) {
    memcpy(address.host, ((const struct sockaddr_un *)&found)->sun_path, sizeof address.host - 1);
  }
  return address;
}

/* Tells who watches of a connection that comes, or goes: then with why. */
static void tell_watchers(const struct connection *connection, const char *reason) {
  if (!is_watched(WATCHED_CONNECTIONS)) return;
  struct address address = address_of(connection->file, getpeername);
  bool is_local = address.family == AF_UNIX;
  watchers_tell_connection(&(struct watched_connection){ .file = connection->file,
                                                         .host = is_local            ? "unix"
                                                                 : address.is_known ? address.host
                                                                                    : "?",
                                                         .port = address.port,
                                                         .transport = is_local ? "local" : "tcp",
                                                         .reason = reason });
}

/* Puts a connection first in its thread's list. Under the lock of the list. */
static void link_connection(struct connection *connection) {
  struct thread *thread = connection->thread;
  connection->previous = &thread->connections;
  connection->next = thread->connections;
  if (connection->next != NULL) connection->next->previous = &connection->next;
  thread->connections = connection;
}

/* Takes it out, where it is in the list. */
static void unlink_connection(struct connection *connection) {
  pthread_mutex_lock(&connection->thread->lock);
  if (connection->next != NULL) connection->next->previous = connection->previous;
  if (connection->previous != NULL) *connection->previous = connection->next;
  pthread_mutex_unlock(&connection->thread->lock);
}

/* Both under the lock: so the thread, which is told of it at once, ends none that isn't in its list yet. false: the
 * epoll has no room, and the thread knows nothing of it. */
static bool add_connection(struct connection *connection) {
  struct thread *thread = connection->thread;
  struct epoll_event event = { .events = EPOLLIN, .data.ptr = connection };
  pthread_mutex_lock(&thread->lock);
  connection->awaits = event.events;
  bool added = epoll_ctl(thread->events, EPOLL_CTL_ADD, connection->file, &event) == 0;
  if (added) link_connection(connection);
  pthread_mutex_unlock(&thread->lock);
  return added;
}

static void end_connection(struct connection *connection) {
  static const char *const REASONS[] = { "error", "normal", "idle_timeout", "shutdown" };
  struct thread *thread = connection->thread;
  unlink_connection(connection);
  sit(connection->file, NULL);
  watchers_leave(connection);
  tell_watchers(connection, REASONS[connection->closing]);
  close(connection->file); /* and so it leaves the epoll */
  connection_drop_value(connection);
  sending_drop(connection);
  buffer_give_back(thread, &connection->in);
  memory_give(MEMORY_connections, memory_of_block(connection));
  memory_free(connection);
  atomic_fetch_sub(&current, 1);
}

static void reject(int file) {
  static const char MANY[] = "ERROR Too many open connections\r\n";
  if (send(file, MANY, sizeof MANY - 1, MSG_NOSIGNAL) < 0) {
    /* it is told or not: it is closed in any case */
  }
  close(file);
  atomic_fetch_add(&rejected, 1);
}

/* Gives a new connection to the threads in turn. */
static void take_in(int file) {
  static uint32_t turn;
  int on = 1;
  setsockopt(file, IPPROTO_TCP, TCP_NODELAY, &on, sizeof on); /* refused by a socket of -s, which doesn't delay */
  struct connection *connection = calloc(1, sizeof *connection);
  if (connection == NULL) {
    count(&FIRST_THREAD->counters, COUNT_malloc_fails, 1);
    close(file);
    return;
  }
  memory_take(MEMORY_connections, memory_of_block(connection));
  connection->file = file;
  connection->thread = &threads[turn++ % (uint32_t)settings.threads];
  connection->active = clock_now();
  atomic_fetch_add(&current, 1);
  atomic_fetch_add(&ever, 1);
  sit(file, connection);
  tell_watchers(connection, NULL);
  if (!add_connection(connection)) end_connection(connection);
}

/* Where there is no file number for one more, those that wait go on waiting, and this thread rests for a while. */
static void accept_some(int listener) {
  for (int i = 0; i < ACCEPTS_AT_ONCE; i++) {
    int file = accept4(listener, NULL, NULL, SOCK_NONBLOCK | SOCK_CLOEXEC);
    if (file < 0 && (errno == EMFILE || errno == ENFILE || errno == ENOBUFS || errno == ENOMEM)) {
      struct timespec rest = { 0, 10000000 };
      atomic_fetch_add(&without_file, 1);
      nanosleep(&rest, NULL);
    }
    if (file < 0) return;
    if (atomic_load(&current) >= (uint64_t)settings.connections) reject(file);
    else take_in(file);
  }
}

void network_accept(const sigset_t *blocked) {
  struct pollfd wait[LISTENERS_MOST];
  for (int i = 0; i < listeners_count; i++) wait[i] = (struct pollfd){ .fd = listeners[i], .events = POLLIN };
  while (!atomic_load(&is_ending)) {
    if (ppoll(wait, (nfds_t)listeners_count, NULL, blocked) <= 0) continue; /* a signal */
    for (int i = 0; i < listeners_count; i++)
      if (wait[i].revents != 0) accept_some(listeners[i]);
  }
}

/* --------------------------------------------------------------------------------------------------- serving */

bool network_prepare(struct thread *thread) {
  pthread_mutex_init(&thread->lock, NULL);
  thread->events = epoll_create1(EPOLL_CLOEXEC);
  thread->wake = eventfd(0, EFD_NONBLOCK | EFD_CLOEXEC);
  if (thread->events < 0 || thread->wake < 0) return false;
  struct epoll_event event = { .events = EPOLLIN, .data.ptr = NULL };
  return epoll_ctl(thread->events, EPOLL_CTL_ADD, thread->wake, &event) == 0;
}

/* Refused where it was written to very often and never read: then the thread is woken anyway. */
void network_wake(struct thread *thread) { eventfd_write(thread->wake, 1); }

/* The file is in the epoll, where a change needs no memory: so it isn't refused. */
static void wait_for(struct connection *connection, uint32_t events) {
  if (connection->awaits == events) return;
  connection->awaits = events;
  struct epoll_event event = { .events = events, .data.ptr = connection };
  epoll_ctl(connection->thread->events, EPOLL_CTL_MOD, connection->file, &event);
}

/* Puts a connection behind the others of a ring, which is named by its last one. */
static void put_behind(struct connection **last, struct connection *connection) {
  connection->is_yielded = true;
  if (*last == NULL) {
    connection->next_yielded = connection;
  } else {
    connection->next_yielded = (*last)->next_yielded;
    (*last)->next_yielded = connection;
  }
  *last = connection;
}

/* Others that have more to do go on before it. */
static void yield_to_others(struct connection *connection) {
  struct thread *thread = connection->thread;
  count(&thread->counters, COUNT_conn_yields, 1);
  thread->now = clock_now(); /* turns take time */
  put_behind(&thread->yielded, connection);
}

/* What comes of its value stays in the socket meanwhile. */
static void park(struct connection *connection) {
  wait_for(connection, 0);
  put_behind(&connection->thread->parked, connection);
}

static void note(struct connection *connection, int does) {
  atomic_store_explicit(&connection->told, (int)connection->state + does, memory_order_relaxed);
}

static void act(struct connection *connection, enum driven driven) {
  switch (driven) {
    case DRIVE_RECEIVES: note(connection, DOES_WAIT), wait_for(connection, EPOLLIN); break;
    case DRIVE_SENDS: note(connection, DOES_SEND), wait_for(connection, EPOLLOUT); break;
    case DRIVE_ANSWERS: sending_prepare_call(connection, calls_next(connection->thread->sends)); break;
    case DRIVE_YIELDS: note(connection, DOES_STEPS), yield_to_others(connection); break;
    case DRIVE_PARKS: note(connection, DOES_WAIT), park(connection); break;
    case DRIVE_ENDS: end_connection(connection); break;
  }
}

static void begin_to_attend(struct connection *connection) {
  atomic_store_explicit(&connection->active, connection->thread->now, memory_order_relaxed);
}

static void attend(struct connection *connection) {
  begin_to_attend(connection);
  act(connection, drive(connection));
}

static void make(struct thread *thread, struct calls *calls) {
  if (calls->count == 0) return;
  count(&thread->counters, COUNT_calls_together, calls_make(calls, thread->queues));
}

/* Sends what was answered to several, by one call of the system. */
static void send_to_all(struct thread *thread) {
  struct calls *calls = thread->sends;
  make(thread, calls);
  for (uint32_t i = 0; i < calls->count; i++) {
    struct connection *connection = calls->call[i].connection;
    act(connection, drive_sent(connection, &calls->call[i]));
  }
  calls->count = 0;
}

/* Receives from several by one call of the system, and serves them. Who was served waits until the others are, but not
 * for longer than a turn takes. */
static void receive_from_all(struct thread *thread) {
  struct calls *calls = thread->receives;
  int32_t work = TURN_WORK;
  make(thread, calls);
  for (uint32_t i = 0; i < calls->count; i++) {
    struct connection *connection = calls->call[i].connection;
    begin_to_attend(connection);
    enum driven driven = drive_received(connection, &calls->call[i]);
    work -= TURN_WORK - connection->work;
    act(connection, driven);
    if (work > 0) continue;
    send_to_all(thread);
    work = TURN_WORK;
  }
  send_to_all(thread);
  calls->count = 0;
}

/* Each of a ring goes on once. */
static void attend_each(struct connection **ring) {
  struct connection *last = *ring;
  if (last == NULL) return;
  struct connection *next = last->next_yielded;
  *ring = NULL;
  for (bool more = true; more;) {
    struct connection *connection = next;
    more = connection != last;
    next = connection->next_yielded;
    connection->is_yielded = false;
    attend(connection);
  }
}

/* Of one that is parked nothing is told but faults. Whether it is to end for one. */
static bool attend_event(struct connection *connection, bool is_alone) {
  struct thread *thread = connection->thread;
  if (!is_alone && drive_prepare(connection, calls_place(thread->receives))) {
    thread->receives->count++;
    if (calls_are_full(thread->receives)) receive_from_all(thread);
    return false;
  }
  if (!connection->is_yielded) return attend(connection), false;
  if (!connection->storing.waits) return false;
  return connection->ends = true;
}

/* The thread was woken: some of the connections that watch may have lines to take. */
static void attend_watchers(struct thread *thread) {
  eventfd_t times;
  uint32_t from = 0;
  eventfd_read(thread->wake, &times); /* it was written to, and nobody else reads it */
  for (struct connection *connection; (connection = watchers_of(thread, &from)) != NULL;)
    if (!connection->is_yielded) attend(connection);
}

/* ------------------------------------------------------------------------------------------------ stats conns */

static void tell(struct connection *to, int file, const char *name, const char *text) {
  connection_print(to, "STAT %d:%s %s\r\n", file, name, text);
}

static void tell_address(struct connection *to, int file, const char *name,
                         int (*ask)(int, struct sockaddr *, socklen_t *)) {
  struct address address = address_of(file, ask);
  char text[sizeof address.host + 32] = "?";
  if (address.family == AF_INET) snprintf(text, sizeof text, "tcp:%s:%u", address.host, address.port);
  if (address.family == AF_INET6) snprintf(text, sizeof text, "tcp6:[%s]:%u", address.host, address.port);
  if (address.family == AF_UNIX) snprintf(text, sizeof text, "unix:%s", address.host);
  if (address.is_known) tell(to, file, name, text);
}

/* memcached's names of what a connection does. */
static const char *name_of(int told) {
  if (told >= DOES_STEPS) return "conn_parse_cmd";
  if (told >= DOES_SEND) return "conn_mwrite";
  if (told == WATCHES) return "conn_watch";
  return told == READS_VALUE ? "conn_nread" : told == SKIPS_BYTES ? "conn_swallow" : "conn_read";
}

static void tell_seconds(struct connection *to, int file, uint32_t since) {
  uint32_t now = clock_now();
  connection_print(to, "STAT %d:secs_since_last_cmd %u\r\n", file, clock_since(since, now));
  to->work -= WORK_TOLD * 4;
}

static void tell_listeners(struct connection *to) {
  for (int i = 0; i < listeners_count; i++) {
    tell_address(to, listeners[i], "addr", getsockname);
    tell(to, listeners[i], "state", "conn_listening");
    tell_seconds(to, listeners[i], TICK_FIRST);
  }
}

static void tell_connection(struct connection *to, const struct connection *of) {
  int told = of == to ? DOES_STEPS : atomic_load_explicit(&of->told, memory_order_relaxed);
  tell_address(to, of->file, "addr", getpeername);
  tell_address(to, of->file, "listen_addr", getsockname);
  tell(to, of->file, "state", name_of(told));
  tell_seconds(to, of->file, atomic_load_explicit(&of->active, memory_order_relaxed));
}

/* A connection that ends leaves its seat before its file is closed. */
bool network_tell(struct connection *connection) {
  struct walk *walk = &connection->walk;
  if (walk->part++ == 0) tell_listeners(connection);
  pthread_mutex_lock(&seating);
  for (int told = 0; told < TOLD_WITH_LOCK && walk->number < (uint32_t)seats && connection->work > 0;) {
    const struct connection *of = seat[walk->number++];
    connection->work--;
    if (of != NULL) tell_connection(connection, of), told++;
  }
  pthread_mutex_unlock(&seating);
  return walk->number == (uint32_t)seats;
}

/* Whether it did nothing for too long, and doesn't watch. */
static bool is_idle(const struct connection *connection, uint32_t now) {
  return !connection->is_yielded && connection->state != WATCHES &&
         clock_since(connection->active, now) > (uint32_t)settings.idle_most;
}

/* Ends some of those that are idle. Whether there may be more: others are served between. */
static bool end_idle(struct thread *thread, uint32_t now) {
  struct connection *idle[IDLE_AT_ONCE];
  int found = 0;
  pthread_mutex_lock(&thread->lock);
  for (struct connection *at = thread->connections; at != NULL && found < IDLE_AT_ONCE; at = at->next)
    if (is_idle(at, now)) idle[found++] = at;
  pthread_mutex_unlock(&thread->lock);
  for (int i = 0; i < found; i++) {
    count(&thread->counters, COUNT_idle_kicks, 1);
    idle[i]->closing = CLOSED_BY_IDLING;
    end_connection(idle[i]);
  }
  return found == IDLE_AT_ONCE;
}

/* Where values wait for others, those of which nothing comes give up what they have: some of them in each second. Other
 * threads' connections may have it, too. */
static void end_stalled(struct thread *thread) {
  struct connection *stalled[IDLE_AT_ONCE];
  int found = 0;
  for (int i = 0; i < settings.threads && thread->parked != NULL; i++)
    if (&threads[i] != thread) network_wake(&threads[i]);
  pthread_mutex_lock(&thread->lock);
  for (struct connection *at = thread->connections; at != NULL && found < IDLE_AT_ONCE; at = at->next)
    if (value_is_stalled(at, thread->now)) stalled[found++] = at;
  pthread_mutex_unlock(&thread->lock);
  for (int i = 0; i < found; i++) {
    value_give_up(stalled[i]);
    attend(stalled[i]);
  }
}

static int64_t milliseconds(void) {
  struct timespec time;
  clock_gettime(CLOCK_MONOTONIC, &time);
  return (int64_t)time.tv_sec * 1000 + time.tv_nsec / 1000000;
}

/* Under the lock of the list: a last connection may just be accepted. */
static struct connection *first_connection(struct thread *thread) {
  pthread_mutex_lock(&thread->lock);
  struct connection *first = thread->connections;
  pthread_mutex_unlock(&thread->lock);
  return first;
}

/* Sends what was answered, as long as there is time, and closes all connections. Nobody gets more time by asking on, or
 * by reading a little at a time. */
static void farewell(struct thread *thread) {
  const int64_t end = milliseconds() + FAREWELL_MILLISECONDS;
  while (thread->yielded != NULL && milliseconds() < end) attend_each(&thread->yielded);
  for (struct connection *connection; (connection = first_connection(thread)) != NULL;) {
    struct pollfd wait = { .fd = connection->file, .events = POLLOUT };
    for (int64_t left; sending_go_on(connection) != SENT_ALL && (left = end - milliseconds()) > 0;)
      poll(&wait, 1, (int)left); /* whatever it tells: sending tells what goes */
    end_connection(connection);
  }
  buffers_free(thread);
}

/* For how long a thread waits for events, in milliseconds. */
static int patience(const struct thread *thread, bool are_idle) {
  if (thread->yielded != NULL || are_idle) return 0;
  if (thread->parked != NULL) return PARKED_MILLISECONDS;
  return settings.idle_most > 0 ? 1000 : -1;
}

void *network_serve(void *given) {
  struct thread *thread = given;
  struct epoll_event event[EVENTS_MOST];
  struct calls receives, sends;
  receives.count = sends.count = 0;
  thread->receives = &receives;
  thread->sends = &sends;
  thread->queues = settings.uses_io_uring ? queues_open() : NULL;
  uint32_t looked = thread->now = clock_now();
  bool are_idle = false;
  while (!atomic_load(&is_ending)) {
    bool is_woken = false, are_due = false; /* those that watch, and those that are parked */
    int events = call_wait(thread->events, event, EVENTS_MOST, patience(thread, are_idle)); /* -1: none, and a signal */
    thread_turns(thread);
    thread->now = clock_now();
    bool is_another_tick = thread->now != looked;
    are_due = is_another_tick; /* since they don't wait for ever */
    looked = thread->now;
    for (int i = 0; i < events; i++) {
      if (event[i].data.ptr == NULL) is_woken = true;
      else are_due |= attend_event(event[i].data.ptr, events == 1);
    }
    receive_from_all(thread);
    if (is_woken) attend_watchers(thread);
    attend_each(&thread->yielded);
    if (thread->parked != NULL && (are_due || items_may_grow())) attend_each(&thread->parked);
    if (is_another_tick && values_wait(thread->now)) end_stalled(thread);
    if (settings.idle_most > 0 && (are_idle || is_another_tick)) are_idle = end_idle(thread, thread->now);
    thread_turns(thread);
  }
  thread_turns(thread);
  farewell(thread);
  queues_close(thread->queues);
  return NULL;
}
