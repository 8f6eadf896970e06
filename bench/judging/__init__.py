"""Judges the outputs of `ecpipe run`: whether each is the replies and the journal of a legal history of its input.

It is written from the definitions, in a language and over a plain table of its own. A file is kept whole. What a run
prints of it are blocks of data, which are pieces of its bytes, so nothing here needs the arithmetic of the code."""
