/* What load.c needs of a system of process groups: group_castd.c and group_corosync.c have it. Each program is a member of one group. */
#ifndef GROUP_H
#define GROUP_H

#include <stddef.h>

enum group_result { GROUP_DONE, GROUP_LATER, GROUP_FAILED };

/* Called from group_dispatch, for each message that is delivered and each view. */
void on_delivery(const void *message, size_t length);
void on_view(size_t members);

/* Connects to the daemon, by the path of a socket where it has one. */
enum group_result group_connect(const char *path);

/* Joins the group. Casts are then ordered totally, or causally where the system can do with less. */
enum group_result group_join(int is_total);

/* Casts a message of at most 16 KiB. GROUP_LATER where the system has no room for it now. */
enum group_result group_cast(const void *message, size_t length);

/* Waits at most so many milliseconds until something comes, and takes what has come. */
enum group_result group_dispatch(int milliseconds);

#endif
