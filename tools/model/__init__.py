"""A model of the device in plain Python: a script goes in, the text of its turns comes out.

It is made from the pages in docs/ and from none of the product's code, so that each can check the other. `script` reads
a script, `modules` judges modules, `world` plays boots and calls, and `play` writes the text. `author` writes random
scripts, with the blocks of `blocks` and the bad lines of `breaking`.

The world has all calls and boots of docs/. Scripts have the lines that the program reads so far: `NOT_YET` in `script`
has the others. Power cuts and lanes have no model yet.
"""
