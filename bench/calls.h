/* Each call of an index, made and tested: 0 where all answer as they should. Those of the hub's strap_take_roster are
 * made apart from the others. */
#ifndef CALLS_H
#define CALLS_H

int each_call(void);
int page_each_call(void);
int roster_calls(void);
int roster_texts(void);
int roster_refusals(void);

#endif
