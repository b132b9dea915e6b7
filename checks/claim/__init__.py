"""The claim, to click through: what claim.py is made of, one topic a file.

A definition is read as text (text), in the files of specs/ (specs) or of src/ (rust); a repository says where a name
leads (repository), and a resolver what each word of a definition stands for (resolve), also of a field, by the shape of
the value before it (shapes, values). From the clauses of the README (promises) come pages (pages), in an order to read
them (order), with laws about their words (laws), and from these counts (counts) and HTML (writing, index, trusted).
"""
