# A vector of 10,000 references to one object.
print("cons r0 1 2")
print("vec r1 10000 r0")
print("print r1")
