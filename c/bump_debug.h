/* A build with checks: it finds a broken promise of bump.h or bump_cache.h where that is cheap. Compile each file of
 * the program with -DBUMP_DEBUG, and bump_debug.c with them (gcc or clang). Each call then looks whether
 * - the handle is one that bump gave, of this kind, and not given back; a copy of one that is gone is found, also where
 *   another handle has its address by now;
 * - no other thread is in a call with the same handle;
 * - two handles of one call are of one store, and no two open stores have the same number;
 * - what the call fills is {0}, and no pointer is NULL;
 * and the first one, whether a file of the program was compiled without -DBUMP_DEBUG.
 * It says what is wrong and where the call stands, and calls bump_debug_broken, which aborts. It doesn't find a lock
 * that wasn't taken while no other thread was in the call, arrays that are too short, calls from a signal handler.
 *
 * In C each call is a macro, so that it knows its file and its line. In C++ none is: the functions have two parameters
 * more, which aren't given. Write {} there in place of {0}, since a handle has a second word. In both a call's address
 * is of another type. The calls that bump_cache_locks.h makes stand in that file. */
#ifndef BUMP_H
#include "bump.h"

#elif defined BUMP_DECLARES || defined BUMP_DECLARES_CACHE
/* Before the declarations of bump.h, and of bump_cache.h. The macros turn them into those of bump_debug.c's functions:
 * with two parameters more, for the place of the call, and with other symbols. C++98 has no macros with ..., and is to
 * say nothing of these. */
#if defined __cplusplus && __cplusplus < 201103L
#pragma GCC system_header
#endif

/* A handle's second word: by it handles are told apart that had the same address. */
#define BUMP_CHECK uint64_t check;

#undef BUMP_AT
#undef BUMP_SYMBOL
#ifdef __cplusplus
#define BUMP_AT const char * = __builtin_FILE(), int = __builtin_LINE()
#else
#define BUMP_AT const char *, int
#endif
#define BUMP_SYMBOL(name) __asm__("bump_debug_" #name)

#ifdef BUMP_DECLARES
#define bump_open(...) bump_open(__VA_ARGS__, BUMP_AT) BUMP_SYMBOL(open)
#define bump_take_worker(...) bump_take_worker(__VA_ARGS__, BUMP_AT) BUMP_SYMBOL(take_worker)
#define bump_take_book(...) bump_take_book(__VA_ARGS__, BUMP_AT) BUMP_SYMBOL(take_book)
#define bump_take_lane(...) bump_take_lane(__VA_ARGS__, BUMP_AT) BUMP_SYMBOL(take_lane)
#define bump_get(...) bump_get(__VA_ARGS__, BUMP_AT) BUMP_SYMBOL(get)
#define bump_touch(...) bump_touch(__VA_ARGS__, BUMP_AT) BUMP_SYMBOL(touch)
#define bump_label(...) bump_label(__VA_ARGS__, BUMP_AT) BUMP_SYMBOL(label)
#define bump_marks(...) bump_marks(__VA_ARGS__, BUMP_AT) BUMP_SYMBOL(marks)
#define bump_marked(...) bump_marked(__VA_ARGS__, BUMP_AT) BUMP_SYMBOL(marked)
#define bump_time(...) bump_time(__VA_ARGS__, BUMP_AT) BUMP_SYMBOL(time)
#define bump_words(...) bump_words(__VA_ARGS__, BUMP_AT) BUMP_SYMBOL(words)
#define bump_release(...) bump_release(__VA_ARGS__, BUMP_AT) BUMP_SYMBOL(release)
#define bump_hit(...) bump_hit(__VA_ARGS__, BUMP_AT) BUMP_SYMBOL(hit)
#define bump_worker_counts(...) bump_worker_counts(__VA_ARGS__, BUMP_AT) BUMP_SYMBOL(worker_counts)
#define bump_worker_close(...) bump_worker_close(__VA_ARGS__, BUMP_AT) BUMP_SYMBOL(worker_close)
#define bump_link(...) bump_link(__VA_ARGS__, BUMP_AT) BUMP_SYMBOL(link)
#define bump_link_temp(...) bump_link_temp(__VA_ARGS__, BUMP_AT) BUMP_SYMBOL(link_temp)
#define bump_link_words(...) bump_link_words(__VA_ARGS__, BUMP_AT) BUMP_SYMBOL(link_words)
#define bump_link_temp_words(...) bump_link_temp_words(__VA_ARGS__, BUMP_AT) BUMP_SYMBOL(link_temp_words)
#define bump_unlink(...) bump_unlink(__VA_ARGS__, BUMP_AT) BUMP_SYMBOL(unlink)
#define bump_pull(...) bump_pull(__VA_ARGS__, BUMP_AT) BUMP_SYMBOL(pull)
#define bump_sweep(...) bump_sweep(__VA_ARGS__, BUMP_AT) BUMP_SYMBOL(sweep)
#define bump_sweep_told(...) bump_sweep_told(__VA_ARGS__, BUMP_AT) BUMP_SYMBOL(sweep_told)
#define bump_size(...) bump_size(__VA_ARGS__, BUMP_AT) BUMP_SYMBOL(size)
#define bump_see(...) bump_see(__VA_ARGS__, BUMP_AT) BUMP_SYMBOL(see)
#define bump_look(...) bump_look(__VA_ARGS__, BUMP_AT) BUMP_SYMBOL(look)
#define bump_walk(...) bump_walk(__VA_ARGS__, BUMP_AT) BUMP_SYMBOL(walk)
#define bump_moves(...) bump_moves(__VA_ARGS__, BUMP_AT) BUMP_SYMBOL(moves)
#define bump_limits(...) bump_limits(__VA_ARGS__, BUMP_AT) BUMP_SYMBOL(limits)
#define bump_lane_class(...) bump_lane_class(__VA_ARGS__, BUMP_AT) BUMP_SYMBOL(lane_class)
#define bump_apply_run(...) bump_apply_run(__VA_ARGS__, BUMP_AT) BUMP_SYMBOL(apply_run)
#define bump_apply_run_told(...) bump_apply_run_told(__VA_ARGS__, BUMP_AT) BUMP_SYMBOL(apply_run_told)
#define bump_rest(...) bump_rest(__VA_ARGS__, BUMP_AT) BUMP_SYMBOL(rest)
#define bump_close(...) bump_close(__VA_ARGS__, BUMP_AT) BUMP_SYMBOL(close)
#define bump_worker_free(...) bump_worker_free(__VA_ARGS__, BUMP_AT) BUMP_SYMBOL(worker_free)
#define bump_book_free(...) bump_book_free(__VA_ARGS__, BUMP_AT) BUMP_SYMBOL(book_free)
#define bump_lane_free(...) bump_lane_free(__VA_ARGS__, BUMP_AT) BUMP_SYMBOL(lane_free)
#else
#define bump_cache_open(...) bump_cache_open(__VA_ARGS__, BUMP_AT) BUMP_SYMBOL(cache_open)
#define bump_cache_take_part(...) bump_cache_take_part(__VA_ARGS__, BUMP_AT) BUMP_SYMBOL(cache_take_part)
#define bump_cache_take_reader(...) bump_cache_take_reader(__VA_ARGS__, BUMP_AT) BUMP_SYMBOL(cache_take_reader)
#define bump_cache_bytes_taken(...) bump_cache_bytes_taken(__VA_ARGS__, BUMP_AT) BUMP_SYMBOL(cache_bytes_taken)
#define bump_cache_for_bytes(...) bump_cache_for_bytes(__VA_ARGS__, BUMP_AT) BUMP_SYMBOL(cache_for_bytes)
#define bump_cache_part_of(...) bump_cache_part_of(__VA_ARGS__, BUMP_AT) BUMP_SYMBOL(cache_part_of)
#define bump_cache_get(...) bump_cache_get(__VA_ARGS__, BUMP_AT) BUMP_SYMBOL(cache_get)
#define bump_cache_get_words(...) bump_cache_get_words(__VA_ARGS__, BUMP_AT) BUMP_SYMBOL(cache_get_words)
#define bump_cache_hold(...) bump_cache_hold(__VA_ARGS__, BUMP_AT) BUMP_SYMBOL(cache_hold)
#define bump_cache_read(...) bump_cache_read(__VA_ARGS__, BUMP_AT) BUMP_SYMBOL(cache_read)
#define bump_cache_read_words(...) bump_cache_read_words(__VA_ARGS__, BUMP_AT) BUMP_SYMBOL(cache_read_words)
#define bump_cache_release(...) bump_cache_release(__VA_ARGS__, BUMP_AT) BUMP_SYMBOL(cache_release)
#define bump_cache_reader_counts(...) bump_cache_reader_counts(__VA_ARGS__, BUMP_AT) BUMP_SYMBOL(cache_reader_counts)
#define bump_cache_put(...) bump_cache_put(__VA_ARGS__, BUMP_AT) BUMP_SYMBOL(cache_put)
#define bump_cache_add(...) bump_cache_add(__VA_ARGS__, BUMP_AT) BUMP_SYMBOL(cache_add)
#define bump_cache_replace(...) bump_cache_replace(__VA_ARGS__, BUMP_AT) BUMP_SYMBOL(cache_replace)
#define bump_cache_update(...) bump_cache_update(__VA_ARGS__, BUMP_AT) BUMP_SYMBOL(cache_update)
#define bump_cache_touch(...) bump_cache_touch(__VA_ARGS__, BUMP_AT) BUMP_SYMBOL(cache_touch)
#define bump_cache_look(...) bump_cache_look(__VA_ARGS__, BUMP_AT) BUMP_SYMBOL(cache_look)
#define bump_cache_find(...) bump_cache_find(__VA_ARGS__, BUMP_AT) BUMP_SYMBOL(cache_find)
#define bump_cache_found_words(...) bump_cache_found_words(__VA_ARGS__, BUMP_AT) BUMP_SYMBOL(cache_found_words)
#define bump_cache_remove(...) bump_cache_remove(__VA_ARGS__, BUMP_AT) BUMP_SYMBOL(cache_remove)
#define bump_cache_tend(...) bump_cache_tend(__VA_ARGS__, BUMP_AT) BUMP_SYMBOL(cache_tend)
#define bump_cache_clear(...) bump_cache_clear(__VA_ARGS__, BUMP_AT) BUMP_SYMBOL(cache_clear)
#define bump_cache_chunks(...) bump_cache_chunks(__VA_ARGS__, BUMP_AT) BUMP_SYMBOL(cache_chunks)
#define bump_cache_each(...) bump_cache_each(__VA_ARGS__, BUMP_AT) BUMP_SYMBOL(cache_each)
#define bump_cache_entry(...) bump_cache_entry(__VA_ARGS__, BUMP_AT) BUMP_SYMBOL(cache_entry)
#define bump_cache_entry_key(...) bump_cache_entry_key(__VA_ARGS__, BUMP_AT) BUMP_SYMBOL(cache_entry_key)
#define bump_cache_entry_value(...) bump_cache_entry_value(__VA_ARGS__, BUMP_AT) BUMP_SYMBOL(cache_entry_value)
#define bump_cache_stats(...) bump_cache_stats(__VA_ARGS__, BUMP_AT) BUMP_SYMBOL(cache_stats)
#define bump_cache_close(...) bump_cache_close(__VA_ARGS__, BUMP_AT) BUMP_SYMBOL(cache_close)
#define bump_cache_part_free(...) bump_cache_part_free(__VA_ARGS__, BUMP_AT) BUMP_SYMBOL(cache_part_free)
#define bump_cache_reader_free(...) bump_cache_reader_free(__VA_ARGS__, BUMP_AT) BUMP_SYMBOL(cache_reader_free)
#endif

#elif defined BUMP_DEBUG
/* Behind them: the macros go on in C, where they give each call its place. */
#undef BUMP_AT
#undef BUMP_SYMBOL
#ifdef __cplusplus
#undef bump_open
#undef bump_take_worker
#undef bump_take_book
#undef bump_take_lane
#undef bump_get
#undef bump_touch
#undef bump_label
#undef bump_marks
#undef bump_marked
#undef bump_time
#undef bump_words
#undef bump_release
#undef bump_hit
#undef bump_worker_counts
#undef bump_worker_close
#undef bump_link
#undef bump_link_temp
#undef bump_link_words
#undef bump_link_temp_words
#undef bump_unlink
#undef bump_pull
#undef bump_sweep
#undef bump_sweep_told
#undef bump_size
#undef bump_see
#undef bump_look
#undef bump_walk
#undef bump_moves
#undef bump_limits
#undef bump_lane_class
#undef bump_apply_run
#undef bump_apply_run_told
#undef bump_rest
#undef bump_close
#undef bump_worker_free
#undef bump_book_free
#undef bump_lane_free
#undef bump_cache_open
#undef bump_cache_take_part
#undef bump_cache_take_reader
#undef bump_cache_bytes_taken
#undef bump_cache_for_bytes
#undef bump_cache_part_of
#undef bump_cache_get
#undef bump_cache_get_words
#undef bump_cache_hold
#undef bump_cache_read
#undef bump_cache_read_words
#undef bump_cache_release
#undef bump_cache_reader_counts
#undef bump_cache_put
#undef bump_cache_add
#undef bump_cache_replace
#undef bump_cache_update
#undef bump_cache_touch
#undef bump_cache_look
#undef bump_cache_find
#undef bump_cache_found_words
#undef bump_cache_remove
#undef bump_cache_tend
#undef bump_cache_clear
#undef bump_cache_chunks
#undef bump_cache_each
#undef bump_cache_entry
#undef bump_cache_entry_key
#undef bump_cache_entry_value
#undef bump_cache_stats
#undef bump_cache_close
#undef bump_cache_part_free
#undef bump_cache_reader_free
#else
#define BUMP_AT __FILE__, __LINE__
#define BUMP_SYMBOL(name)
#endif

#ifndef BUMP_DEBUG_H
#define BUMP_DEBUG_H
#ifdef __cplusplus
extern "C" {
#endif

/* Is told what is wrong, as a line of text. Unless the program sets it, the line goes to standard error, and the
 * program is aborted. Where it returns, the call is made all the same. */
extern void (*bump_debug_broken)(const char *what);

#ifdef __cplusplus
}
#endif

#endif

#endif
