"""What helps people where a program has refused what they wrote: which word is wrong, what would be right there, and what they may
have meant. Whether something is refused is decided by the programs alone."""
