/* Sends the requests of a file, as pfcp-restore writes them, to a unit. */
#ifndef SEND_H
#define SEND_H

/* The words after "send": FILE ADDRESS [ADDRESS] [PORT]. Says what happens and gives the exit status. */
int send_requests(int count, char **words);

#endif
