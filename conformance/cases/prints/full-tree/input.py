# A full binary tree of depth 17, each node of its own, built depth first with a register for each level.
def tree(depth):
    if depth == 0:
        print("cons r0 nil nil")
        return
    tree(depth - 1)
    print(f"mov r{99 + depth} r{depth - 1}")
    tree(depth - 1)
    print(f"cons r{depth} r{99 + depth} r{depth - 1}")


tree(16)
print("print r16")
