# A list of 200,000 pairs, printed.
print("cons r0 0 nil")
for i in range(1, 200000):
    print(f"cons r0 {i} r0")
print("print r0")
