print("= #0")
print("#0 vec g0 t0" + " #1" * 10000)
print("#1 pair g0 t0 1 2")
