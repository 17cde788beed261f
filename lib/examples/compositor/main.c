/*
 * A small Wayland compositor over wlroots 0.15. A live service decides which of its clients get touches and keys.
 *
 *     compositor [--limit MS]
 *
 *     --limit MS   a window that leaves a message unfinished for so long is reported; 5000 if not given
 *
 * It prints the name of its socket, and each window that does not respond. Alt+Escape, SIGINT and SIGTERM end it.
 */
#include <signal.h>
#include <time.h>

#include <wlr/util/log.h>

#include "compositor.h"

static uint64_t monotonic_us(void)
{
	struct timespec t;

	clock_gettime(CLOCK_MONOTONIC, &t);
	return (uint64_t)t.tv_sec * 1000000 + (uint64_t)t.tv_nsec / 1000;
}

static int handle_signal(int number, void *data)
{
	((struct server *)data)->is_running = false;
	return 0;
}

int main(int count, char **words)
{
	static struct server s = {.clock_us = monotonic_us, .limit_us = 5000000};
	struct wl_event_source *signals[2];
	const char *socket;

	if (count == 3 && strcmp(words[1], "--limit") == 0) {
		s.limit_us = strtoull(words[2], NULL, 10) * 1000;
	} else if (count != 1) {
		fprintf(stderr, "usage: compositor [--limit MS]\n");
		return 2;
	}
	s.display = wl_display_create();
	wlr_log_init(WLR_ERROR, NULL);
	signals[0] = wl_event_loop_add_signal(wl_display_get_event_loop(s.display), SIGINT, handle_signal, &s);
	signals[1] = wl_event_loop_add_signal(wl_display_get_event_loop(s.display), SIGTERM, handle_signal, &s);
	socket = server_begin(&s, wlr_backend_autocreate(s.display));
	if (!socket) {
		fprintf(stderr, "compositor: it cannot begin\n");
		return 1;
	}
	printf("socket %s\n", socket);
	server_run(&s);
	wl_event_source_remove(signals[0]);
	wl_event_source_remove(signals[1]);
	server_end(&s);
	return 0;
}
