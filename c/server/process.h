/* The process: its user, its limits, the file of its number. What can't be had ends the program, and says so. */
#ifndef PROCESS_H
#define PROCESS_H

/* Says what can't be had, and ends the program. */
_Noreturn void process_fail(const char *what);

/* Looks whom the process is to become: root has to say so, be it root. */
void process_find_user(void);

/* For -d: goes on in a second process, while the first one waits for process_detach. Before there are threads. */
void process_become_daemon(void);

/* A daemon serves: its first process may end, and it leaves the terminal alone, unless it is to say more. */
void process_detach(void);

/* From here on it is that user. */
void process_become_user(void);

/* As many files may be open as there may be connections. Where they may not it takes fewer, and says so. */
void process_raise_files(void);

/* For -r: the process may leave a core, as large as its limits allow. */
void process_allow_cores(void);

/* For -k: no memory is swapped, from here on. */
void process_lock_memory(void);

/* For -L: says so where the kernel makes no large pages of itself. */
void process_look_at_pages(void);

/* The file of the process's number. */
void process_write_number(void);
void process_forget_number(void);

#endif
