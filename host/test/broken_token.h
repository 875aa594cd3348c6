/* Records whose token that may be resent is not one: the rich sample with the token changed. */
#ifndef HOST_BROKEN_TOKEN_H
#define HOST_BROKEN_TOKEN_H

void try_broken_tokens(void);

#endif
