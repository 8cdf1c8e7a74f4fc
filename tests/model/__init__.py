"""A plain model of what the program prints, written from docs/ and from nothing in crates/.

flows       a flow, its check, its image, and what an image or a flow file states
table       the specified table of a transaction, and its trace
engine      several sessions, their queue and their journal
script      the lines of a script
stops       runs of a script whose journal is cut, and their recoveries
law         the outcome law, as the lines of a trace show it
journal     the tables of a journal
shown       what `journal` prints of these tables
pool        what sessions that run as threads did
messages    messages of ISO 8583:1987, their frames, and what `decode` prints
switch      the participants of the switch, and what `run` answers
requests    random requests for `run`
traces      the lines of the trace as JSON
threads     the trace of `run --threads`, followed line by line
texts       how the program's messages begin
generate    random inputs, each with what the model answers
"""
