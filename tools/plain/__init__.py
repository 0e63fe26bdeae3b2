"""A plain model of the programs, slow and simple, written from the documents: nothing in it was taken from the code but
which keys a bench has, as tools/bindings writes them.

machine: one machine, with a log of what happened in it. documents: reads scripts, benches and scenarios. time: how time
passes in a scenario. orders: every order in which callers may ask. words: the words of a machine, and which are lawful.
tables: the tables of a run, from the log. make: random inputs. `python3 tools/plain` prints what these come to.
"""
