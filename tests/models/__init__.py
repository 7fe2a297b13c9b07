"""Models in Python of what the crates do, written from the rules (documents 01 and 02).

    der       reading one element
    reader    reading a file, and its listing
    writer    writing the file of a table; takes elements apart by reader
    pairs     the certificate for a key; takes rows and elements from reader
    runs      the calls on a table; by reader, writer and pairs
    upload    the check of an upload while it arrives; takes elements apart by der
    text      files wrapped as text; by no other model
    numbers   the numbers of refusals and the sizes, which all of them name

der and reader share names and numbers, and no logic: each takes an element apart in its own way.
They are imported from tests/, or run there as `python3 -m models.NAME`.
"""
