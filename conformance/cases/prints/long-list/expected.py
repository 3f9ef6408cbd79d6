# From the newest pair to the oldest.
print("= #0")
for n in range(200000):
    rest = f"#{n + 1}" if n < 199999 else "nil"
    print(f"#{n} pair g0 t0 {199999 - n} {rest}")
