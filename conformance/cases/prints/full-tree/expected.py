# Breadth first: node n has the nodes 2n + 1 and 2n + 2.
print("= #0")
last = 2 ** 17 - 1
for n in range(last):
    left, right = (f"#{2 * n + 1}", f"#{2 * n + 2}") if 2 * n + 1 < last else ("nil", "nil")
    print(f"#{n} pair g0 t0 {left} {right}")
