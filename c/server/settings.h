/* What the command line says, and what commands change later. */
#ifndef SETTINGS_H
#define SETTINGS_H

#include <stdbool.h>
#include <stdint.h>

/* What clients are told: the version of memcached whose protocol is spoken, and no more, as some read it as numbers. */
#define SERVER_VERSION "1.6.18"

/* As memcached's where it has them: sysexits.h names the two of a start that failed. */
enum { EXIT_SETTLED = 0, EXIT_LEFT = 1, EXIT_WRONG_OPTION = 64, EXIT_NO_START = 71 };

/* Which protocol a connection speaks: one of them, or that which its first byte is of. */
enum protocol { PROTOCOL_AUTO, PROTOCOL_TEXT, PROTOCOL_BINARY };

/* A worker of bump's for each thread: a store has at most 64. */
enum { THREADS_MOST = 64 };

struct settings {
  int port;
  const char *address;
  const char *socket_path; /* in place of the port */
  unsigned socket_mode;
  const char *user;
  const char *process_file;
  int threads;
  int connections;
  int backlog;
  int requests_at_once; /* of one connection, before others come */
  int idle_most;        /* seconds, after which a connection is closed; 0: never */
  uint32_t item_most;   /* bytes of an item, as memcached reckons it */
  uint32_t chunk_most;  /* of the largest class */
  uint32_t chunk_least; /* of key, value and flags in the smallest class */
  double growth_factor;
  bool evicts;
  bool has_unique; /* each item has a number for cas */
  bool may_flush;
  bool may_shut_down;
  bool may_watch;
  bool may_dump;
  bool counts_prefixes; /* from the start on; and the letter that ends a prefix */
  char prefix_delimiter;
  bool counts_sizes; /* from the start on */
  enum protocol protocol;
  bool locks_memory;
  bool is_daemon;
  bool dumps_core;
  bool wants_large_pages;
  bool begins_crawling;
  bool maintains;
  bool uses_io_uring; /* where the kernel lets it */
  bool walks;            /* the end frees each item, though the process's end frees all */
  bool may_move_time;    /* for tests */
  uint64_t bytes_before; /* said to be in use already: for tests */
  uint64_t mappings;     /* that the process may have: for tests; 0: as the system says */
  _Atomic int verbosity;
  _Atomic uint64_t memory;
  _Atomic int hot_percent;
  _Atomic int warm_percent;
  _Atomic double hot_factor;
  _Atomic double warm_factor;
  _Atomic double balance;    /* a class whose oldest item is younger than that part of another's takes its memory */
  _Atomic int temporary_ttl; /* -1: none */
  _Atomic bool crawls;
  _Atomic bool is_flat; /* items are in one list, and not in HOT, WARM and TEMP */
};

extern struct settings settings;

/* Reads the command line. Where it is wrong, or is answered at once, the program ends. */
void settings_read(int count, char **words);

#endif
