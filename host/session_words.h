/* A session of a list: as text with its records, as one line, and as JSON. */
#ifndef SESSION_WORDS_H
#define SESSION_WORDS_H

#include "sessions.h"
#include "text.h"

void session_text(struct text *text, const struct session *session);
void session_summary(struct text *text, const struct session *session);
void session_json(struct text *text, const struct session *session);

#endif
