"""Blind breakpoint tokens, a second time and independently, in plain Python.

Written from the definitions of the protocol and not from the part's code, with the slowest and plainest
arithmetic that says what is meant. The checks beside this folder run the part and compare it with this.

    faults    the numbers and layers of every refusal
    groups    res2039 and circ523, their elements, scalars and maps
    steps     hashing, blinding, authenticator, composites, batch proof
    messages  request, reply, token input, token
    books     the spent books, as a set and as the bytes of their memory
    client    blind, finish, abandon
    station   open, close, issue, redeem, count
    bench     what the bench program prints for a script
"""
