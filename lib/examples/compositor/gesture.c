/*
 * What the compositor itself makes of fingers. Its spy, in front of all windows, sees each of them: three that move
 * down by a quarter of the display are taken away from the windows, and the hindmost toplevel comes to the front. A
 * finger raises the toplevel that it goes to; one that goes to no surface closes popups with a grab.
 */
#include "compositor.h"

#define SWIPE_FINGERS 3

static void swipe(struct server *s, const struct inputflinger_message *m)
{
	int32_t far = s->height * s->unit / 4;

	/* It begins when the last finger comes. */
	for (int i = 0; i < m->count && is_down(m); i++)
		s->swipe_y[m->pointers[i].id] = m->pointers[i].y;
	if (m->action != INPUTFLINGER_MOVE || m->count != SWIPE_FINGERS)
		return;
	for (int i = 0; i < m->count; i++)
		if (m->pointers[i].y - s->swipe_y[m->pointers[i].id] < far)
			return;
	/* It is done once: the fingers have to go down as far again. */
	for (int i = 0; i < m->count; i++)
		s->swipe_y[m->pointers[i].id] = m->pointers[i].y;
	s->wants_pilfer = m->device;
}

/* A message on its way to a window. */
void gesture_see(struct window *w, const struct inputflinger_message *m)
{
	struct server *s = w->server;

	if (w == s->spy && m->kind == INPUTFLINGER_MOTION)
		swipe(s, m);
	if (!is_down(m))
		return;
	s->unclaimed += w == s->spy ? 1 : -1;
	if (w->surface)
		s->wants_raise = shell_view(w->surface);
}

/* Does what messages asked for, once all are sent. */
void gesture_act(struct server *s)
{
	if (s->wants_pilfer) {
		service_begin(s);
		service_took(inputflinger_live_pilfer(&s->live, s->last_us, &s->spy->client, s->wants_pilfer),
			     "pilfer");
		service_end(s);
		s->wants_pilfer = 0;
		s->wants_raise = shell_hindmost(s);
	}
	if (s->unclaimed > 0)
		shell_dismiss(s);
	s->unclaimed = 0;
	if (s->wants_raise)
		shell_raise(s->wants_raise);
	s->wants_raise = NULL;
}
